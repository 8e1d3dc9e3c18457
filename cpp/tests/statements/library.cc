// Of a shared library, which is linked, or loaded as a plugin. Its name is in NAME.
#include "shared.h"

#ifndef NAME
#define NAME "library"
#endif

namespace {

struct Lasting {
    Lasting() { NANO_LOG(NOTICE, NAME " begins"); }
    ~Lasting() { NANO_LOG(NOTICE, NAME " ends"); }
} lasting;

}  // namespace

extern "C" [[gnu::visibility("default")]] void of_library(int number) {
    in_header(number);
    NANO_LOG(NOTICE, NAME " logs %d, %s", number, std::string("a text"));
}
