// Statements in all places of a program of several units and libraries.
#include "shared.h"

namespace {

constexpr char kFormat[] = "format of a name %d";
int global = (NANO_LOG(WARNING, "initialiser of a global"), 7);

void places() {
    LOG_INFO("wrapped");
    LOG_AT(ERROR, "wrapped with %s", __func__);
    const auto lambda = [](auto number) {
        NANO_LOG(NOTICE, "generic lambda %d", static_cast<int>(number));
        return [=] { NANO_LOG(NOTICE, "nested lambda %d", static_cast<int>(number)); };
    };
    lambda(1)();
    lambda('a')();
    Member(5);
    in_constexpr(-1);
    NANO_LOG(NOTICE, kFormat, 4);
    LOG_INFO("first of a line"); LOG_INFO("second of a line");
    NANO_LOG(NOTICE, "argument %d", [] { NANO_LOG(NOTICE, "of an argument"); return 6; }());
    if (global > 7)
        NANO_LOG(NOTICE, "then");
    else
        NANO_LOG(NOTICE, "else");
    global > 0 ? NANO_LOG(NOTICE, "yes") : NANO_LOG(NOTICE, "no");
    switch (global) {
        case 7: NANO_LOG(NOTICE, "case"); break;
        default: NANO_LOG(NOTICE, "default");
    }
    for (int number = 0; number < 2; number++) NANO_LOG(NOTICE, "loop %d", number);
    NANO_LOG(NOTICE, "bytes \"\\\xc3\xa9 %s", "end");
}

}  // namespace

int main() {
    nanolog::Session log("places.log");
    places();
    in_header(1);
    in_template(1);
    in_template(2l);
    of_other(3);
    of_archive(4);
    of_library(5);
    const nanolog::Report report = log.close();
    return report.unknown + report.stale + report.misfit == 0 && report.cut == 0 ? 0 : 1;
}
