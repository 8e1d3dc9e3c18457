#include <both.h>

[[gnu::visibility("default")]] void shared();

void shared() {
    NANO_LOG(NOTICE, "a shared library says %s", "yes");
    both("the shared library");
}
