// How far texts are read, and how long calls are cut. It is part of nanolog.hpp.
#pragma once

#include <cstddef>
#include <cstdint>
#include <cstring>

#include "nanolog.h"
#include "nanolog_arguments.hpp"

namespace nanolog {
inline namespace version_1 {
namespace detail {

// The most bytes that are read of a text whose conversion stands at this place. A negative precision is none.
inline std::uint32_t most_read(const nanolog_arg *args, std::size_t place, Kind kind, const std::uint16_t *limits) {
    if (is_starred(kind)) {
        const auto precision = static_cast<std::int64_t>(args[place - 1].word);
        if (precision < 0) return kOpen;
        return precision < NANOLOG_MAX_TEXT ? static_cast<std::uint32_t>(precision) : NANOLOG_MAX_TEXT;
    }
    return most_in(kind) == kAsked ? limits[place] : most_in(kind);
}

// Finds the end of a text, and answers 1 where it ends at a NUL inside it. No byte is read behind what is printed, but for
// one where there is no precision and the text is longer than any that is logged. A precision in front of a text that is
// above what there is of precisions is taken as the greatest.
inline std::uint64_t measure_text(nanolog_arg *args, std::size_t place, Kind kind, const std::uint16_t *limits) {
    nanolog_arg &arg = args[place];
    const std::uint64_t bound = arg.word & ~kWhole, most = most_read(args, place, kind, limits);
    const std::size_t readable = static_cast<std::size_t>(most < bound ? most : bound);
    arg.len = readable == 0 ? 0 : strnlen(reinterpret_cast<const char *>(arg.text), readable);
    if (is_starred(kind) && static_cast<std::int64_t>(args[place - 1].word) > std::int64_t{kMaxSize}) {
        args[place - 1].word = kMaxSize;
    }
    return (arg.word & kWhole) != 0 && arg.len < readable ? 1 : 0;
}

// Finds the ends of all texts, and answers how many end at a NUL inside them.
inline std::uint64_t measure_texts(nanolog_arg *args, const Kind *kinds, std::size_t count,
                                   const std::uint16_t *limits) {
    std::uint64_t cut = 0;
    for (std::size_t place = 0; place < count; place++) {
        if (letter_in(kinds[place]) == 's') cut += measure_text(args, place, kinds[place], limits);
    }
    return cut;
}

// A width or a precision is out of its range.
inline bool has_wrong_size(const nanolog_arg *args, const Kind *kinds, std::size_t count) {
    for (std::size_t place = 0; place < count; place++) {
        const auto size = static_cast<std::int64_t>(args[place].word);
        const char letter = letter_in(kinds[place]);
        if ((letter == 'w' || letter == 'p') && size > std::int64_t{kMaxSize}) return true;
        if (letter == 'w' && size < -std::int64_t{kMaxSize}) return true;
    }
    return false;
}

// ---- calls that are too long

// The words of the longest call, and the bytes that all of its texts can have.
constexpr std::size_t kMaxWords = 512;
constexpr std::size_t kCutRoom = 8 * kMaxWords;

// How many words a call has whose texts have so many bytes at most.
inline std::size_t words_of(const nanolog_arg *args, std::size_t count, std::size_t most) {
    std::size_t words = 2 + count;
    for (std::size_t place = 0; place < count; place++) {
        if (args[place].tag != NANOLOG_TEXT) continue;
        words += ((args[place].len < most ? args[place].len : most) + 7) / 8;
    }
    return words;
}

// The greatest length of texts with which a call fits. One of a few bytes always does.
inline std::size_t fitting(const nanolog_arg *args, std::size_t count) {
    std::size_t fits = 3, too_long = NANOLOG_MAX_TEXT + 1;
    while (too_long - fits > 1) {
        const std::size_t middle = fits + (too_long - fits) / 2;
        (words_of(args, count, middle) <= kMaxWords ? fits : too_long) = middle;
    }
    return fits;
}

// Where a text is cut so that no character of UTF-8 is, at this byte or a few before it.
inline std::size_t whole_front(const std::uint8_t *text, std::size_t len) {
    for (std::size_t back = 0; back < 4 && back <= len; back++) {
        const std::uint8_t byte = text[len - back];
        if (byte < 0x80) return len;
        if (byte >= 0xc0) {
            const std::size_t bytes = byte >= 0xf0 ? 4 : byte >= 0xe0 ? 3 : 2;
            return bytes > back ? len - back : len;
        }
    }
    return len;
}

// Cuts each text that is longer than the others may be, into this room, and answers how many were cut. The texts must
// have been measured.
inline std::uint64_t cut_texts(nanolog_arg *args, std::size_t count, std::uint8_t *room) {
    constexpr std::size_t dots = 3;
    const std::size_t most = fitting(args, count);
    std::uint64_t cut = 0;
    for (std::size_t place = 0; place < count; place++) {
        nanolog_arg &arg = args[place];
        if (arg.tag != NANOLOG_TEXT || arg.len <= most) continue;
        const std::size_t front = whole_front(arg.text, most - dots);
        std::memcpy(room, arg.text, front);
        std::memcpy(room + front, "...", dots);
        arg.text = room;
        arg.len = front + dots;
        room += arg.len;
        cut++;
    }
    return cut;
}

}  // namespace detail
}  // namespace version_1
}  // namespace nanolog
