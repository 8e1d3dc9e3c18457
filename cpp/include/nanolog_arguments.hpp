// How the arguments of a statement become those of the C library. It is part of nanolog.hpp.
#pragma once

#include <cstddef>
#include <cstdint>
#include <type_traits>
#include <utility>

#include "nanolog.h"
#include "nanolog_format.hpp"

namespace nanolog {
inline namespace version_1 {
namespace detail {

template <class Given>
constexpr bool is_integer() {
    if constexpr (std::is_integral_v<Given> || std::is_enum_v<Given>) {
        return sizeof(Given) <= sizeof(std::uint64_t);
    } else {
        return false;
    }
}

template <class Given>
constexpr bool is_pointer = std::is_pointer_v<Given> || std::is_null_pointer_v<Given>;

template <class Given>
constexpr bool is_c_string = std::is_same_v<Given, char *> || std::is_same_v<Given, const char *>;

// Whether it is a std::string, a std::string_view, or another such class of char.
template <class Given, class = void>
constexpr bool is_string = false;
template <class Given>
constexpr bool is_string<Given, std::void_t<typename Given::traits_type, decltype(std::declval<const Given &>().data()),
                                            decltype(std::declval<const Given &>().size())>> =
    is_c_string<std::decay_t<decltype(std::declval<const Given &>().data())>>;

// What printf takes for a conversion of numbers.
template <char Letter>
using Word = std::conditional_t<
    Letter == 'l', std::int64_t,
    std::conditional_t<Letter == 'm', std::uint64_t, std::conditional_t<Letter == 'u', std::uint32_t, std::int32_t>>>;

// Whether a conversion takes this type, and whether it takes only a part of it.
template <char Letter, class Given>
constexpr bool is_taken = Letter == 's' ? is_c_string<Given> || is_string<Given> || std::is_null_pointer_v<Given>
                                        : is_integer<Given>() || (Letter == 'm' && is_pointer<Given>);
template <char Letter, class Given>
constexpr bool is_wide = is_integer<Given>() && sizeof(Given) > sizeof(Word<Letter>);

// Has the compiler say which argument doesn't fit.
template <std::size_t Number, char Letter, class Given>
constexpr void tell_misfit() {
    constexpr bool never = !std::is_same_v<Given, Given>;
    static_assert(Letter != 's' || never, "nanolog: %s takes a char *, a std::string or a std::string_view");
    static_assert(Letter != 'm' || never, "nanolog: this conversion takes an integer, or a pointer if it is %p");
    static_assert(Letter == 's' || Letter == 'm' || never, "nanolog: this conversion takes an integer");
#define NANOLOG_UNFIT(number) \
    static_assert(Number != number || never, "nanolog: argument " #number " doesn't fit the format");
#define NANOLOG_UNFITS(a, b, c, d) NANOLOG_UNFIT(a) NANOLOG_UNFIT(b) NANOLOG_UNFIT(c) NANOLOG_UNFIT(d)
    NANOLOG_UNFITS(1, 2, 3, 4)
    NANOLOG_UNFITS(5, 6, 7, 8)
    NANOLOG_UNFITS(9, 10, 11, 12)
    NANOLOG_UNFITS(13, 14, 15, 16)
    NANOLOG_UNFITS(17, 18, 19, 20)
    NANOLOG_UNFITS(21, 22, 23, 24)
    NANOLOG_UNFITS(25, 26, 27, 28)
    NANOLOG_UNFITS(29, 30, 31, 32)
    NANOLOG_UNFITS(33, 34, 35, 36)
    NANOLOG_UNFITS(37, 38, 39, 40)
    NANOLOG_UNFITS(41, 42, 43, 44)
    NANOLOG_UNFITS(45, 46, 47, 48)
    NANOLOG_UNFITS(49, 50, 51, 52)
    NANOLOG_UNFITS(53, 54, 55, 56)
    NANOLOG_UNFITS(57, 58, 59, 60)
    NANOLOG_UNFITS(61, 62, 63, 64)
#undef NANOLOG_UNFITS
#undef NANOLOG_UNFIT
}

// The argument with this number of a statement, from 1, for a conversion. It is a number, and is taken by value, as
// printf takes it: a static const member that is defined nowhere will do. Each kind of integer has a constructor of its
// own, so that a compiler warns at the argument itself.
template <std::size_t Number, char Letter>
class Argument {
   public:
    template <class Given,
              std::enable_if_t<is_integer<Given>() && is_taken<Letter, Given> && !is_wide<Letter, Given>, int> = 0>
    constexpr Argument(Given given) : word_(static_cast<Word<Letter>>(given)) {}

    template <class Given, std::enable_if_t<is_taken<Letter, Given> && is_wide<Letter, Given>, int> = 0>
    [[deprecated("nanolog: this integer is wider than its conversion, which prints only its low bits")]]  //
    constexpr Argument(Given given)
        : word_(static_cast<Word<Letter>>(given)) {}

    template <class Given, std::enable_if_t<is_pointer<Given> && is_taken<Letter, Given>, int> = 0>
    Argument(Given given) : word_(reinterpret_cast<std::uintptr_t>(given)) {}

    template <class Given, std::enable_if_t<!is_taken<Letter, std::decay_t<Given>>, int> = 0>
    Argument(const Given &) : word_() {
        tell_misfit<Number, Letter, Given>();
    }

    // Puts it at its place among the arguments of a call.
    void put(nanolog_arg *args) const {
        nanolog_arg &arg = args[Number - 1];
        arg.tag = std::is_signed_v<Word<Letter>> ? NANOLOG_SIGNED : NANOLOG_UNSIGNED;
        arg.word = static_cast<std::uint64_t>(word_);
        arg.text = nullptr;
        arg.len = 0;
    }

   private:
    Word<Letter> word_;
};

// A text ends at its NUL, or else after so many bytes, and with kWhole all of these are meant.
constexpr std::uint64_t kWhole = std::uint64_t{1} << 63;
constexpr std::uint64_t kUnbound = kWhole - 1;

// A text. It has two words, so that it goes by registers.
template <std::size_t Number>
class Argument<Number, 's'> {
   public:
    template <class Given, std::enable_if_t<is_c_string<Given>, int> = 0>
    Argument(Given given) : text_(given != nullptr ? given : "(null)"), bound_(kUnbound) {}

    Argument(std::nullptr_t) : Argument(static_cast<const char *>(nullptr)) {}

    // Nothing is read behind an array, unless it has a single char: that may be the front of a longer text.
    template <std::size_t Size>
    Argument(const char (&given)[Size]) : text_(given), bound_(Size > 1 ? Size : kUnbound) {}

    template <class Given, std::enable_if_t<is_string<Given>, int> = 0>
    Argument(const Given &given) : text_(given.data()), bound_(given.size() | kWhole) {}

    template <class Given, std::enable_if_t<!is_taken<'s', std::decay_t<Given>>, int> = 0>
    Argument(const Given &) : text_(nullptr), bound_(0) {
        tell_misfit<Number, 's', Given>();
    }

    // The word says how far the text may be read. It isn't read yet.
    void put(nanolog_arg *args) const {
        nanolog_arg &arg = args[Number - 1];
        arg.tag = NANOLOG_TEXT;
        arg.word = bound_;
        arg.text = reinterpret_cast<const std::uint8_t *>(text_);
        arg.len = 0;
    }

   private:
    const char *text_;
    std::uint64_t bound_;
};

}  // namespace detail
}  // namespace version_1
}  // namespace nanolog
