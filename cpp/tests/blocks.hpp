// The blocks of a log.
#pragma once

#include <cstdint>
#include <cstdio>
#include <string>
#include <vector>

#include "check.hpp"

constexpr std::size_t kHeader = 31;
enum Tag : unsigned { kFragment = 1, kExtent, kClock, kCloseMark };

struct Block {
    unsigned tag;
    std::size_t at, len;
};

// A number of a log, its low byte first.
inline std::uint64_t number_at(const std::string &log, std::size_t at, std::size_t bytes) {
    CHECK(at + bytes <= log.size());
    std::uint64_t number = 0;
    while (bytes-- > 0) number = number << 8 | static_cast<unsigned char>(log[at + bytes]);
    return number;
}

// The blocks of a log that ends with one.
inline std::vector<Block> blocks_of(const std::string &log) {
    CHECK(log.size() >= kHeader && log.compare(0, 5, "NLOG\2") == 0);
    std::vector<Block> blocks;
    for (std::size_t at = kHeader; at < log.size();) {
        const std::size_t begin = at;
        const auto tag = static_cast<unsigned>(number_at(log, at++, 1));
        CHECK(tag >= kFragment && tag <= kCloseMark);
        if (tag == kFragment) {
            std::uint64_t entries = number_at(log, at + 4, 2);
            for (at += 6; entries != 0; entries--) {
                at += 5;  // severity and line
                at += 2 + number_at(log, at, 2);
                at += 2 + number_at(log, at, 2);
            }
        } else if (tag == kExtent) {
            at += 6 + number_at(log, at + 2, 4);
        } else {
            at += tag == kClock ? 24 : 2;
        }
        CHECK(at <= log.size());
        blocks.push_back({tag, begin, at - begin});
    }
    return blocks;
}

// The bytes of a file.
inline std::string bytes_of_file(const char *name) {
    std::FILE *const file = std::fopen(name, "r");
    CHECK(file != nullptr);
    std::string all;
    static char bytes[65536];
    while (const std::size_t len = std::fread(bytes, 1, sizeof bytes, file)) all.append(bytes, len);
    std::fclose(file);
    return all;
}
