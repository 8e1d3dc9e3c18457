#ifdef TWO_WAYS
#include <way.h>
#endif

#include "told.h"

void more();

void more() {
    NANO_LOG(ERROR, "more of %s", "it");
    told(2);
}
