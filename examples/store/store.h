// A store keeps values by their keys, in room for a number of bytes.
#pragma once

#include <cstddef>
#include <cstdint>
#include <map>
#include <string>

#include "nano_log.h"

class Store {
public:
    explicit Store(std::size_t room) : room_(room) {}

    // Keeps a value under a key that is new. False where the room doesn't suffice.
    bool put(const std::string& key, const std::string& value);

    // The value of a key, or none.
    const std::string* get(const std::string& key);

    void tell() const;

private:
    bool has_room(std::size_t bytes) const {
        const std::size_t left = room_ - taken_;
        if (bytes > left) NANO_LOG(nano::WARNING, "no room for %zu bytes, only for %zu", bytes, left);
        return bytes <= left;
    }

    std::map<std::string, std::string> values_;
    std::size_t room_;
    std::size_t taken_ = 0;
    std::uint64_t asked_ = 0;
    std::uint64_t found_ = 0;
};
