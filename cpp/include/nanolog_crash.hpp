// What a crash leaves of a log. It is part of nanolog.hpp.
#pragma once

#include <pthread.h>
#include <signal.h>

#include <atomic>
#include <cerrno>
#include <cstddef>
#include <cstdint>

#include "nanolog_consumer.hpp"

namespace nanolog {
inline namespace version_1 {
namespace detail {

// Signals that end a program by a fault, std::terminate's among them.
constexpr int kCrashes[] = {SIGSEGV, SIGBUS, SIGILL, SIGFPE, SIGABRT};
constexpr std::size_t kCrashCount = sizeof kCrashes / sizeof kCrashes[0];

struct Crash {
    // The one whose log is to be written; null where there is none.
    std::atomic<Consumer *> consumer{nullptr};
    // The actions in whose place ours stands.
    struct sigaction former[kCrashCount] = {};
    bool is_watched[kCrashCount] = {};
};
inline Crash crash [[gnu::visibility("default")]];

// Has the consumer, which is another thread, write what was logged, and lets the signal end the program. It does
// nothing that isn't allowed in a signal handler, and waits a second at most.
inline void end_by_crash(int signal) {
    const int error = errno;
    hub.level.store(0);
    Consumer *const consumer = crash.consumer.load();
    if (consumer != nullptr && !consumer->is_this_thread()) consumer->wait(consumer->ask(), time_after(kSecond));
    for (std::size_t place = 0; place < kCrashCount; place++) {
        if (kCrashes[place] == signal) sigaction(signal, &crash.former[place], nullptr);
    }
    // It is blocked until this handler returns.
    raise(signal);
    errno = error;
}

inline bool has_action(int signal, void (*wanted)(int), struct sigaction &found) {
    return sigaction(signal, nullptr, &found) == 0 && (found.sa_flags & SA_SIGINFO) == 0 && found.sa_handler == wanted;
}

// Watches the signals that have their default action: where there is another one, it is the program's, or a
// sanitizer's.
inline void watch_crashes(Consumer &consumer) {
    crash.consumer.store(&consumer);
    struct sigaction ours = {};
    ours.sa_handler = &end_by_crash;
    ours.sa_flags = SA_ONSTACK;
    sigfillset(&ours.sa_mask);
    for (std::size_t place = 0; place < kCrashCount; place++) {
        struct sigaction &former = crash.former[place];
        crash.is_watched[place] =
            has_action(kCrashes[place], SIG_DFL, former) && sigaction(kCrashes[place], &ours, nullptr) == 0;
    }
}

// Puts the former actions back, where nobody has put another one in the place of ours.
inline void leave_crashes() {
    struct sigaction found = {};
    for (std::size_t place = 0; place < kCrashCount; place++) {
        if (crash.is_watched[place] && has_action(kCrashes[place], &end_by_crash, found)) {
            sigaction(kCrashes[place], &crash.former[place], nullptr);
        }
        crash.is_watched[place] = false;
    }
    crash.consumer.store(nullptr);
}

}  // namespace detail
}  // namespace version_1
}  // namespace nanolog
