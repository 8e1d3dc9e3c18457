// How this example compiles its log statements: each writes its severity and its text to the standard error. The
// compiler checks the arguments against the format.
#pragma once

#include <cstdio>

namespace nano {

enum Severity { ERROR = 1, WARNING, NOTICE, DEBUG };

inline const char* name(Severity severity) {
    constexpr const char* names[] = {"ERROR", "WARNING", "NOTICE", "DEBUG"};
    return names[severity - 1];
}

}  // namespace nano

// For a run of the compiler's preprocessor in front of `nanolog preprocess` the statements stay as they are written.
#ifndef NANO_LOG_UNEXPANDED
#define NANO_LOG(severity, ...)                                     \
    (std::fprintf(stderr, "%s: ", nano::name(severity)),            \
     std::fprintf(stderr, __VA_ARGS__), std::fputc('\n', stderr))
#endif
