// A unit of a program of which some have their statements taken out, and others haven't. UNIT is its name.
#include "mixed.h"

void UNIT(int number) {
    in_both(number);
    NANO_LOG(NOTICE, "unit %s of %d", __func__, number);
    NANO_LOG(WARNING, "text %.3s, number %5d", "abcdef", number);
}
