// The library and the program compile this function; the linker takes either.
#pragma once

#include <nanolog.hpp>

inline void both(const char *by) { NANO_LOG(WARNING, "an inline function, called by %s", by); }
