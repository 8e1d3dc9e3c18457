// A header whose function any unit may bring.
#pragma once

#include <nanolog.hpp>

inline void in_both(int number) { NANO_LOG(NOTICE, "header of both %d", number); }
