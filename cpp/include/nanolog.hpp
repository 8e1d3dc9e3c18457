// Logging from C++17. docs/cpp.md tells how it is used.
//
// A statement is known to the program from before main. A session makes the dictionary of all of them, and writes the
// log of what they say by way of libnanolog.a, with which the program is linked; its libraries aren't. Until the first
// session begins a statement prints its line to standard error.
//
// Statements that `nanolog inject` took out of their sources have no format in the program. Where a nanolog_messages.h
// is on the include path, which `nanolog header` writes, they log too, and the session is given their dictionary.
//
// A statement may stand in any thread, but not in a signal handler. It takes no lock and no memory, unless it is its
// thread's first one or goes by the writer that is shared.
#pragma once

#if __cplusplus < 201703L
#error "nanolog.hpp is for C++17 and later standards: compile with -std=c++17"
#elif !defined(__linux__) || !defined(__x86_64__)
#error "nanolog.hpp is for Linux on x86-64"
#else

#include <cstdint>
#include <cstdio>

#include "nanolog.h"
#include "nanolog_hub.hpp"
#include "nanolog_numbered.hpp"
#include "nanolog_report.hpp"
#include "nanolog_session.hpp"
#include "nanolog_statement.hpp"

#endif
