#include <nanolog.hpp>

void objects();

void objects() { NANO_LOG(ERROR, "an object library has %zu parts", sizeof(int)); }
