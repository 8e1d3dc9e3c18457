#include "told.h"

void lib();
void more();

int main() {
#ifdef NANOLOG_DICTIONARY
    nanolog::Session log("app.log", "app.dict");
#else
    nanolog::Session log("app.log");
#endif
    NANO_LOG(NOTICE, "the disk has %d parts", 7);
    NANO_LOG(WARNING, "the disk is %d%% full", 91);
    told(1);
    lib();
    more();
}
