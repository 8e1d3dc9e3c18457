// Of a static library.
#include "shared.h"

void of_archive(int number) {
    in_header(number);
    in_template('c');
    NANO_LOG(NOTICE, "archive.cc %d", number);
}
