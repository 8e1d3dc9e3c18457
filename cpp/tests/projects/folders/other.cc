#include "app/names.h"

#include <cassert>
#include <nanolog.hpp>

#include "things/thing.h"

int other() {
    NANO_LOG(ERROR, "other.cc %s", kName);
    return 1 + kThing;
}
