// A session that is a static object, and is made before those of other units.
#include "shared.h"

namespace {

nanolog::Session session("global.log");

}  // namespace

int main() {
    of_other(1);
    in_header(2);
    const nanolog::Report report = session.close();
    return report.logged == 6 && report.is_clean() ? 0 : 1;
}
