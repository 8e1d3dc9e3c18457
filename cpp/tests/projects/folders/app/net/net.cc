#include "net.h"

#include "../names.h"

int connect() {
    tell_net(1);
    NANO_LOG(NOTICE, "net.cc %s", kName);
    return 1;
}
