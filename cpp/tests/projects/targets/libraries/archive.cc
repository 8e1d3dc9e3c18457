#include <both.h>

void archive();

void archive() {
    NANO_LOG(NOTICE, "an archive says %d", 42);
    both("the archive");
}
