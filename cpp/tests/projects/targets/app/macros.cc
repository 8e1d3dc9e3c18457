#include <nanolog.hpp>

#define LOG_NOTICE(...) NANO_LOG(NOTICE, __VA_ARGS__)

void macros();

void macros() {
    LOG_NOTICE("a wrapper says %s to %s", GREETING, NAME);
    NANO_LOG(NOTICE, "properties say %s to %s", GREETING, NAME);
}
