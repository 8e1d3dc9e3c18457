// A plugin of the program times.
#include <nanolog.hpp>

extern "C" void of_plugin(int number) { NANO_LOG(NOTICE, "of the plugin %d", number); }
