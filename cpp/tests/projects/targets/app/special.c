#include <nanolog.hpp>

void special();

void special() { NANO_LOG(NOTICE, "a source of C++ with another name"); }
