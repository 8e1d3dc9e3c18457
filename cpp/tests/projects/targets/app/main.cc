#include <both.h>
#include <parts/all.h>
#include <parts/part.h>

void archive();
void shared();
void objects();
void piece();
void made();
void macros();
void special();

static void table() {
#include "table.inc"
}

int main() {
    nanolog::Session log("app.log", "app.dict");
    NANO_LOG(NOTICE, "the program begins");
    archive();
    shared();
    objects();
    piece();
    made();
    macros();
    special();
    table();
    all();
    both("the program");
    return 0;
}
