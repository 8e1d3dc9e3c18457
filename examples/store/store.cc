#include "store.h"

#include <cinttypes>

bool Store::put(const std::string& key, const std::string& value) {
    if (!has_room(value.size())) return false;
    taken_ += value.size();
    values_.emplace(key, value);
    NANO_LOG(nano::DEBUG, "put %s, %zu%% of the room taken", key.c_str(), 100 * taken_ / room_);
    return true;
}

const std::string* Store::get(const std::string& key) {
    asked_++;
    const auto found = values_.find(key);
    if (found == values_.end()) {
        NANO_LOG(nano::ERROR, R"(no value for "%s")", key.c_str());
        return nullptr;
    }
    found_++;
    return &found->second;
}

void Store::tell() const {
    constexpr int key_width = 8;
    for (const auto& [key, value] : values_) {
        NANO_LOG(nano::DEBUG, "%-*s \"%.12s\"", key_width, key.c_str(), value.c_str());
    }
    NANO_LOG(
        nano::NOTICE,
        "found %" PRIu64 " of %" PRIu64 ", "  // of the keys that were asked for
        "%zu of %zu bytes taken",             // of the room
        found_, asked_, taken_, room_);
}
