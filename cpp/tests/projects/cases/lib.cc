#include <nanolog.hpp>

void lib();

void lib() {
    NANO_LOG(NOTICE, "the library says %d", 42);
    NANO_LOG(WARNING, "the library is %d%% full", 43);
}
