#include "store.h"

int main() {
    using namespace nano;
    const std::string pairs[][2] = {
        {"greeting", "good morning"},
        {"farewell", "see you tomorrow, then"},
        {"poem", "a poem that is too long for so small a store"},
    };

    NANO_LOG(NOTICE, "started");
    Store store(48);
    int refused = 0;
    for (const auto& pair : pairs) {
        if (!store.put(pair[0], pair[1])) refused++;
    }
    for (const auto& pair : pairs) store.get(pair[0]);
    store.tell();
    NANO_LOG(NOTICE, "stopped, " "%d of %d refused", refused, 3);
}
