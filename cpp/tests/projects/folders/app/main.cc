#include "net/net.h"

#include <things/thing.h>

int other();

int main() {
    nanolog::Session log("program.log", "program.dict");
    NANO_LOG(NOTICE, "main %d", 1);
    return connect() + thing() + other() - 6;
}
