#include <nanolog.hpp>

void piece();

void piece() { NANO_LOG(DEBUG, "a source of an interface library"); }
