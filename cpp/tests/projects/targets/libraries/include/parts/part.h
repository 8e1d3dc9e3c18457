#pragma once

#include <nanolog.hpp>

#include "depth.h"

template <class T>
void part(T value) {
    NANO_LOG(NOTICE, "a template of an interface library, %d", value + kDepth);
}
