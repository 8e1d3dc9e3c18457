// Another unit of the program, with the header's statements, too.
#include "shared.h"

namespace {

// It is made before main, and maybe before the session.
struct Early {
    Early() { NANO_LOG(WARNING, "static constructor"); }
} early;

void twice(int number) { NANO_LOG(NOTICE, "static function of other.cc %d", number); }

}  // namespace

void of_other(int number) {
    in_header(number);
    in_template(number);
    twice(number);
    LOG_AT(DEBUG, "other.cc %d", number);
}
