// What a format takes, and what is wrong with it. The compiler finds it out. It is part of nanolog.hpp.
#pragma once

#include <cstddef>
#include <cstdint>

#include "nanolog.h"

namespace nanolog {
inline namespace version_1 {
namespace detail {

constexpr std::size_t kMaxFormat = 4095;
constexpr std::uint32_t kMaxSize = 4095;

// The most bytes that are read of a text. Of a text without a precision one more is looked at than can be logged, to
// see whether it goes on; and of one whose format isn't known here the session knows it.
constexpr std::uint32_t kOpen = NANOLOG_MAX_TEXT + 1;
constexpr std::uint32_t kAsked = kOpen + 1;

// What a format takes at one place: the letter of the argument, and of a text the most bytes that are read and whether
// the argument in front of it is its precision. `i`, `u`, `l` and `m` are the int, the unsigned and the long ones, `w`
// and `p` the width and the precision of a `*`, and `s` is a text. `m` is also that of a pointer.
using Kind = std::uint32_t;
constexpr Kind kind_of(char letter) { return static_cast<unsigned char>(letter); }
constexpr Kind text_kind(std::uint32_t most, bool is_starred) {
    return kind_of('s') | most << 8 | (is_starred ? 1u << 24 : 0u);
}
constexpr char letter_in(Kind kind) { return static_cast<char>(kind & 0xff); }
constexpr std::uint32_t most_in(Kind kind) { return kind >> 8 & 0xffff; }
constexpr bool is_starred(Kind kind) { return (kind >> 24) != 0; }

enum class FormatFault : unsigned char {
    kNothing,
    kFloating,
    kWideText,
    kStoring,
    kBadPercent,
    kBadLength,
    kUnknown,
    kTooWide,
    kEnding,
    kNul,
    kTooMany,
    kTooLong
};

struct Format {
    Kind kinds[NANOLOG_MAX_ARGUMENTS] = {};
    std::size_t count = 0;
    FormatFault fault = FormatFault::kNothing;
    bool ends_with_line = false;
};

constexpr bool has(const char *text, char wanted) {
    while (*text != 0 && *text != wanted) text++;
    return *text != 0;
}

// Reads a format from left to right, up to its first fault.
class FormatReader {
   public:
    constexpr FormatReader(const char *bytes, std::size_t len) : bytes_(bytes), len_(len) {}

    constexpr Format read() {
        found_.ends_with_line = len_ != 0 && bytes_[len_ - 1] == '\n';
        if (len_ > kMaxFormat) refuse(FormatFault::kTooLong);
        while (is_right() && at_ < len_) {
            const char next = bytes_[at_++];
            if (next == 0) {
                refuse(FormatFault::kNul);
            } else if (next == '%' && !takes("%")) {
                read_field();
            }
        }
        return found_;
    }

   private:
    constexpr bool is_right() const { return found_.fault == FormatFault::kNothing; }
    constexpr void refuse(FormatFault fault) {
        if (is_right()) found_.fault = fault;
    }

    constexpr bool stands(const char *any) const { return at_ < len_ && bytes_[at_] != 0 && has(any, bytes_[at_]); }

    // Goes on behind the next byte where it is one of these.
    constexpr bool takes(const char *any) {
        const bool is_one = stands(any);
        if (is_one) at_++;
        return is_one;
    }

    constexpr void add(Kind kind) {
        if (found_.count == NANOLOG_MAX_ARGUMENTS) refuse(FormatFault::kTooMany);
        if (is_right()) found_.kinds[found_.count++] = kind;
    }

    constexpr std::uint32_t read_number() {
        std::uint32_t number = 0;
        while (is_right() && stands("0123456789")) {
            number = number * 10 + static_cast<std::uint32_t>(bytes_[at_++] - '0');
            if (number > kMaxSize) refuse(FormatFault::kTooWide);
        }
        return number;
    }

    constexpr void read_field() {
        while (takes("-+ #0")) {
        }
        if (takes("*")) {
            add(kind_of('w'));
        } else {
            read_number();
        }
        std::uint32_t most = kOpen;
        bool has_star = false;
        if (is_right() && takes(".")) {
            has_star = takes("*");
            if (has_star) {
                add(kind_of('p'));
            } else {
                const std::uint32_t precision = read_number();
                most = precision < NANOLOG_MAX_TEXT ? precision : NANOLOG_MAX_TEXT;
            }
        }
        if (is_right()) read_conversion(text_kind(most, has_star));
    }

    constexpr void read_conversion(Kind text) {
        const char length = stands("hljztL") ? bytes_[at_++] : '\0';
        if (length == 'h') takes("h");
        const bool is_double = length == 'l' && takes("l");
        if (at_ == len_) return refuse(FormatFault::kEnding);
        const char conversion = bytes_[at_++];
        const bool is_number = stands_in("diouxX", conversion), is_bare = stands_in("csp", conversion);
        if (stands_in("aAeEfFgG", conversion)) return refuse(FormatFault::kFloating);
        if (conversion == 'n') return refuse(FormatFault::kStoring);
        if (conversion == '%') return refuse(FormatFault::kBadPercent);
        if (conversion == 0) return refuse(FormatFault::kNul);
        if (!is_number && !is_bare) return refuse(FormatFault::kUnknown);
        if (is_bare && length == 'l' && !is_double && conversion != 'p') return refuse(FormatFault::kWideText);
        if (length == 'L' || (is_bare && length != 0)) return refuse(FormatFault::kBadLength);
        const bool is_long = length != 0 && length != 'h';
        if (conversion == 's') return add(text);
        if (conversion == 'p') return add(kind_of('m'));
        if (stands_in("dic", conversion)) return add(kind_of(is_long ? 'l' : 'i'));
        add(kind_of(is_long ? 'm' : 'u'));
    }

    static constexpr bool stands_in(const char *any, char wanted) { return wanted != 0 && has(any, wanted); }

    const char *bytes_;
    std::size_t len_;
    std::size_t at_ = 0;
    Format found_;
};

constexpr Format read_format(const char *bytes, std::size_t len) { return FormatReader(bytes, len).read(); }

// Has the compiler say what is wrong with a format.
template <FormatFault Fault>
constexpr bool is_format() {
    static_assert(Fault != FormatFault::kFloating, "nanolog: the format is refused: it has a floating conversion");
    static_assert(Fault != FormatFault::kWideText, "nanolog: the format is refused: it has %lc or %ls");
    static_assert(Fault != FormatFault::kStoring, "nanolog: the format is refused: it has %n");
    static_assert(Fault != FormatFault::kBadPercent,
                  "nanolog: the format is refused: a % stands behind a flag, a width, a precision or a length");
    static_assert(Fault != FormatFault::kBadLength,
                  "nanolog: the format is refused: its conversion doesn't go with its length");
    static_assert(Fault != FormatFault::kUnknown, "nanolog: the format is refused: it has an unknown conversion");
    static_assert(Fault != FormatFault::kTooWide,
                  "nanolog: the format is refused: it has a width or a precision above 4095");
    static_assert(Fault != FormatFault::kEnding, "nanolog: the format is refused: it ends within a conversion");
    static_assert(Fault != FormatFault::kNul, "nanolog: the format is refused: it has a NUL");
    static_assert(Fault != FormatFault::kTooMany, "nanolog: the format is refused: it takes more than 64 arguments");
    static_assert(Fault != FormatFault::kTooLong, "nanolog: the format is refused: it has more than 4095 bytes");
    return Fault == FormatFault::kNothing;
}

}  // namespace detail
}  // namespace version_1
}  // namespace nanolog
