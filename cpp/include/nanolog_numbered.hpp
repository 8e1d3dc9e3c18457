// What a statement is that was taken out of its source. It is part of nanolog.hpp.
#pragma once

#include <cstddef>
#include <cstdint>
#include <type_traits>

#include "nanolog_statement.hpp"

#if __has_include("nanolog_messages.h")

namespace nanolog {

// The messages of the program. The tables of the header are made constants for the compiler.
namespace messages {

// clang-format off
#define nano_log_types no_pointer [[maybe_unused]] = nullptr; static constexpr const char *const nano_log_types
#define nano_log_severity no_byte [[maybe_unused]] = 0; static constexpr unsigned char nano_log_severity
// clang-format on
#include "nanolog_messages.h"
#undef nano_log_types
#undef nano_log_severity

namespace {

constexpr std::uint32_t kCount = NANO_LOG_MESSAGES;
#undef NANO_LOG_MESSAGES

template <std::uint32_t Id>
constexpr bool is_known() {
    static_assert(Id < kCount, "nanolog: there is no such message; nanolog_messages.h is that of another dictionary");
    return Id < kCount;
}

template <std::uint32_t Id>
constexpr const char *types() {
    return is_known<Id>() ? nano_log_types[Id] : "";
}

template <std::uint32_t Id>
constexpr unsigned char severity() {
    return is_known<Id>() ? nano_log_severity[Id] : 1;
}

}  // namespace
}  // namespace messages
}  // namespace nanolog

// A statement that was taken out: a number for what its message says, the id of the message, and its arguments.
#define NANOLOG_NUMBERED(digits, ...)                                                                 \
    (::nanolog::detail::keeps_numbered(::nanolog::messages::severity<NANOLOG_FIRST(__VA_ARGS__, )>()) \
         ? ::nanolog::detail::statement<::nanolog::detail::Numbered>([] {                             \
               struct Said {                                                                          \
                   static constexpr ::std::uint64_t number() { return digits; }                       \
                   static constexpr ::std::uint32_t id() { return NANOLOG_FIRST(__VA_ARGS__, ); }     \
                   static constexpr const char *letters() {                                           \
                       return ::nanolog::messages::types<NANOLOG_FIRST(__VA_ARGS__, )>();             \
                   }                                                                                  \
                   static constexpr const char *file() { return __FILE__; }                           \
                   static constexpr unsigned char severity() {                                        \
                       return ::nanolog::messages::severity<NANOLOG_FIRST(__VA_ARGS__, )>();          \
                   }                                                                                  \
               };                                                                                     \
               return Said();                                                                         \
           }())                                                                                       \
               .make(__VA_ARGS__)                                                                     \
         : void())

#else

#define NANOLOG_NUMBERED(digits, ...) \
    ::nanolog::detail::tell_unbuilt<::nanolog::detail::Unbuilt::kWithoutMessages, __LINE__>()

#endif

// What `nanolog inject` writes by itself.
#define NANO_LOG_CALL(...) ::nanolog::detail::tell_unbuilt<::nanolog::detail::Unbuilt::kWithoutNumbers, __LINE__>()

#ifdef NANOLOG_INJECTED_ONLY
#undef NANO_LOG
#define NANO_LOG(...) ::nanolog::detail::tell_unbuilt<::nanolog::detail::Unbuilt::kNotInjected, __LINE__>()
#endif

namespace nanolog {
inline namespace version_1 {
namespace detail {

// What is wrong with how a statement came to the compiler.
enum class Unbuilt { kWithoutMessages, kWithoutNumbers, kNotInjected };

template <Unbuilt Why, int Line>
constexpr void tell_unbuilt() {
    static_assert(Why != Unbuilt::kWithoutMessages,
                  "nanolog: this source was injected, but its nanolog_messages.h isn't on the include path");
    static_assert(
        Why != Unbuilt::kWithoutNumbers,
        "nanolog: this source was injected without numbers; nanolog-inject and nanolog_add_messages put them in");
    static_assert(Why != Unbuilt::kNotInjected,
                  "nanolog: this statement wasn't injected, as NANOLOG_INJECTED_ONLY asks for");
}

}  // namespace detail
}  // namespace version_1
}  // namespace nanolog
