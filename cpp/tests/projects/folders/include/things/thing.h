#pragma once

#include <nanolog.hpp>

#include "plain_thing.h"

inline int thing() {
    NANO_LOG(DEBUG, "thing.h %d", kThing);
    return kThing;
}
