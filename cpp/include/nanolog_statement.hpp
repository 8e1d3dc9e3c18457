// What a statement is. It is part of nanolog.hpp.
#pragma once

#include <cstddef>
#include <cstdint>
#include <type_traits>
#include <utility>

#include "nanolog_arguments.hpp"
#include "nanolog_format.hpp"
#include "nanolog_hub.hpp"
#include "nanolog_module.hpp"
#include "nanolog_printing.hpp"
#include "nanolog_registry.hpp"

namespace nanolog {
inline namespace version_1 {
namespace detail {

// ---- whether a call is made

// Whether these are the statements of a plugin whose program doesn't share what it has.
inline bool is_alone() {
    unsigned found = hub.loneliness.load(std::memory_order_relaxed);
    if (found == 0) hub.loneliness.store(found = is_in_plugin(&hub) ? 2 : 1, std::memory_order_relaxed);
    return found == 2;
}

// Without a session a statement prints its line, as long as there never was one; else its call is counted. A plugin
// that is by itself can't know of sessions.
[[gnu::noinline, gnu::cold]] inline bool is_printed() {
    if (!hub.has_begun.load(std::memory_order_acquire) && !is_alone()) return true;
    count_sessionless();
    return false;
}

[[gnu::noinline, gnu::cold]] inline bool is_counted() {
    count_sessionless();
    return false;
}

// Whether the level keeps a call. Of a statement that was taken out there is nothing to print.
inline bool keeps(int severity) {
    const int kept = hub.level.load(std::memory_order_relaxed);
    return kept != 0 ? severity <= kept : is_printed();
}
inline bool keeps_numbered(int severity) {
    const int kept = hub.level.load(std::memory_order_relaxed);
    return kept != 0 ? severity <= kept : is_counted();
}

// Makes a call where the thread has no free slot.
[[gnu::noinline, gnu::cold]] inline void call_elsewhere(Call &call) {
    if (hub.has_begun.load(std::memory_order_acquire)) {
        hub.functions.call_slowly(call);
    } else {
        print_call(call);
    }
}

inline void make_plainly(Call &call) {
    Slot *const slot = mine.slot;
    const std::uint64_t free_state = mine.free_state;
    bool is_over = false;
    if (slot != nullptr && enter(*slot, free_state, free_state + kBusy) == free_state) {
        const Leaving leaving(*slot, free_state);
        is_over = put(*slot, call);
    }
    if (!is_over) call_elsewhere(call);
}

inline void make_call(Call &call) {
    const std::uint32_t attention = hub.attention.load(std::memory_order_acquire);
    if (attention == 0) {
        make_plainly(call);
    } else {
        hub.functions.make_attended(call, attention);
    }
}

// The calls whose arguments are of these kinds.
template <class Places, Kind... Kinds>
struct Calls;
template <std::size_t... Places, Kind... Kinds>
struct Calls<std::index_sequence<Places...>, Kinds...> {
    static constexpr std::size_t kCount = sizeof...(Kinds);
    static constexpr Kind kKinds[kCount + 1] = {Kinds..., 0};

    [[gnu::noinline]] static void make(Site &site, Argument<Places + 1, letter_in(Kinds)>... arguments) {
        if constexpr (kCount == 0) {
            Call call{site, nullptr, kKinds, 0, nullptr, 0};
            make_call(call);
        } else {
            nanolog_arg args[kCount];
            (arguments.put(args), ...);
            constexpr bool has_texts = ((letter_in(Kinds) == 's') || ...);
            Call call{site, args, kKinds, kCount, has_texts ? &measure : nullptr, 0};
            make_call(call);
        }
    }

   private:
    static std::uint64_t measure(nanolog_arg *args, const std::uint16_t *limits) {
        return ((letter_in(Kinds) == 's' ? measure_text(args, Places, Kinds, limits) : 0) + ... + 0);
    }
};

// ---- what a statement says

// The number of the severity that this names, with or without a namespace in front, or 0 where it names none.
constexpr unsigned severity_of(const char *text) {
    const char *name = text;
    for (const char *at = text; *at != 0; at++) {
        if (*at == ':' || *at == ' ') name = at + 1;
    }
    const char *const names[] = {"ERROR", "WARNING", "NOTICE", "DEBUG"};
    for (unsigned number = 1; number <= 4; number++) {
        const char *left = name, *right = names[number - 1];
        for (; *left != 0 && *left == *right; left++) right++;
        if (*left == *right) return number;
    }
    return 0;
}

template <unsigned Number>
struct Named {
    static_assert(Number != 0, "nanolog: the first argument of a statement is ERROR, WARNING, NOTICE or DEBUG");
    static constexpr unsigned kNumber = Number == 0 ? 1 : Number;
};

constexpr std::size_t length_of(const char *text) {
    std::size_t count = 0;
    while (text[count] != 0) count++;
    return count;
}

// The end of a file's name, as much of it as a dictionary takes.
constexpr const char *file_name(const char *name) {
    constexpr std::size_t most = 255;
    const std::size_t len = length_of(name);
    return len == 0 ? "?" : len > most ? name + (len - most) : name;
}

// The bytes of a format, with any NUL that is among them.
struct Bytes {
    const char *bytes;
    std::size_t len;
};
template <std::size_t Size>
constexpr Bytes bytes_of(const char (&text)[Size]) {
    return {text, Size - 1};
}
template <class Text, std::enable_if_t<is_c_string<Text>, int> = 0>
constexpr Bytes bytes_of(Text text) {
    return {text, length_of(text)};
}

// The format of a statement as its first argument: it is known otherwise, and a compiler warns here at it.
template <bool EndsWithLine>
struct FormatArgument {
    template <class Text>
    constexpr FormatArgument(const Text &) {}
};
template <>
struct FormatArgument<true> {
    template <class Text>
    [[deprecated("nanolog: the format ends in a line feed, and each line of a log has one already")]]  //
    constexpr FormatArgument(const Text &) {}
};

// The kinds that these letters of the generated header stand for. The session knows how far texts are read.
constexpr Format format_of_letters(const char *letters) {
    Format found;
    for (; *letters != 0; letters++) {
        const bool has_star = found.count != 0 && letter_in(found.kinds[found.count - 1]) == 'p';
        found.kinds[found.count++] = *letters == 's' ? text_kind(kAsked, has_star) : kind_of(*letters);
    }
    return found;
}

// ---- statements

// What there is to know of a statement as it was written.
template <class Said>
struct Written {
    static constexpr Format kRead = read_format(Said::format().bytes, Said::format().len);
    static constexpr Format kFormat = is_format<kRead.fault>() ? kRead : Format();
    using First = FormatArgument<kFormat.ends_with_line>;

    static constexpr Message message(const Kind *kinds) {
        return {file_name(Said::file()), Said::format().bytes, kinds, 0, 0, Said::line(),
                Said::severity(),        kFormat.count};
    }
};

// What there is to know of one that was taken out, and numbered. Its first argument is its id.
template <class Said>
struct Numbered {
    static constexpr Format kFormat = format_of_letters(Said::letters());
    using First = std::uint32_t;

    static constexpr Message message(const Kind *kinds) {
        return {file_name(Said::file()), nullptr,      kinds, Said::number(), Said::id(), 0,
                Said::severity(),        kFormat.count};
    }
};

// A statement is registered before static objects are made, and taken out when they are gone. g++ forgets the priority
// of a function in a template, unless it depends on the template's parameter.
#ifdef __clang__
#define NANOLOG_EARLIEST(type) 101
#else
template <class Type>
constexpr int earliest = 101;
#define NANOLOG_EARLIEST(type) earliest<type>
#endif

// The static data of a statement. Each module has its own. A program isn't unloaded, but a library may be.
template <class Facts, class Made>
struct [[gnu::visibility("hidden")]] Registered {
    static inline Site site{Facts::message(Made::kKinds)};

    __attribute__((constructor(NANOLOG_EARLIEST(Facts)))) static void join() { registry.add(site); }
#if defined(__PIC__) && !defined(__PIE__)
    __attribute__((destructor(NANOLOG_EARLIEST(Facts)))) static void quit() { registry.remove(site); }
#endif

    static Site &registered() {
        static_cast<void>(&join);
#if defined(__PIC__) && !defined(__PIE__)
        static_cast<void>(&quit);
#endif
        return site;
    }
};
#undef NANOLOG_EARLIEST

template <class Facts, class Places = std::make_index_sequence<Facts::kFormat.count>>
struct Statement;
template <class Facts, std::size_t... Places>
struct Statement<Facts, std::index_sequence<Places...>> {
    using Made = Calls<std::index_sequence<Places...>, Facts::kFormat.kinds[Places]...>;

    static void make(typename Facts::First,
                     Argument<Places + 1, letter_in(Facts::kFormat.kinds[Places])>... arguments) {
        Made::make(Registered<Facts, Made>::registered(), arguments...);
    }

    template <class... Given, std::enable_if_t<sizeof...(Given) != sizeof...(Places), int> = 0>
    static void make(typename Facts::First, const Given &...) {
        static_assert(sizeof...(Given) > sizeof...(Places), "nanolog: there are fewer arguments than the format takes");
        static_assert(sizeof...(Given) < sizeof...(Places), "nanolog: there are more arguments than the format takes");
    }
};

template <template <class> class Facts, class Said>
constexpr Statement<Facts<Said>> statement(Said) {
    return {};
}

}  // namespace detail
}  // namespace version_1
}  // namespace nanolog

#define NANOLOG_FIRST(first, ...) first
#define NANOLOG_SEVERITY(text) ::nanolog::detail::Named<::nanolog::detail::severity_of(text)>::kNumber

// A statement. It is an expression without a value. What it says is a type of its own, so that it has static data.
#define NANO_LOG(grade, ...)                                                                      \
    (::nanolog::detail::keeps(NANOLOG_SEVERITY(#grade))                                           \
         ? ::nanolog::detail::statement<::nanolog::detail::Written>([] {                          \
               struct Said {                                                                      \
                   static constexpr ::nanolog::detail::Bytes format() {                           \
                       return ::nanolog::detail::bytes_of(NANOLOG_FIRST(__VA_ARGS__, ""));        \
                   }                                                                              \
                   static constexpr const char *file() { return __FILE__; }                       \
                   static constexpr unsigned line() { return __LINE__; }                          \
                   static constexpr unsigned char severity() { return NANOLOG_SEVERITY(#grade); } \
               };                                                                                 \
               return Said();                                                                     \
           }())                                                                                   \
               .make(__VA_ARGS__)                                                                 \
         : void())
