#pragma once

#include <nanolog.hpp>

inline void told(int by) { NANO_LOG(NOTICE, "a header says %d", by); }
