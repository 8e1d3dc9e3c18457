// What the programs share that show how programs and sessions end.
#pragma once

#include <fcntl.h>
#include <pthread.h>
#include <sys/resource.h>
#include <sys/stat.h>
#include <unistd.h>

#include <csignal>
#include <cstring>
#include <nanolog.hpp>
#include <stdexcept>
#include <string>
#include <thread>

#include "check.hpp"

constexpr const char *kLog = "ends.log";
#ifdef DICTIONARY
constexpr const char *kDictionary = DICTIONARY;
#else
constexpr const char *kDictionary = nullptr;
#endif
constexpr int kThreads = 4;
constexpr int kLines = 5;

inline const char *word = "";

// Says where the program stands, among what the library says.
inline void mark(const char *text) {
    const std::string line = std::string("-- ") + text + "\n";
    CHECK(write(STDERR_FILENO, line.data(), line.size()) == static_cast<ssize_t>(line.size()));
}

inline std::uint64_t milliseconds() {
    timespec time{};
    clock_gettime(CLOCK_MONOTONIC, &time);
    return static_cast<std::uint64_t>(time.tv_sec) * 1000 + static_cast<std::uint64_t>(time.tv_nsec) / 1000000;
}

// ---- threads that log

inline std::atomic<int> returned[kThreads];
inline std::atomic<bool> is_over{false};

inline void call(int thread, int number) { NANO_LOG(NOTICE, "thread %d call %d", thread, number); }

// Logs so many calls at most, a few at once, and then stays.
inline void call_on(int thread, int most) {
    constexpr int at_once = 8;
    for (int number = 0; number < most && !is_over; number++) {
        call(thread, number);
        returned[thread].store(number + 1);
        if (number % at_once == at_once - 1) std::this_thread::yield();
    }
    while (!is_over) usleep(1000);
}

// Begins threads that log and don't end, and waits until all of them do.
inline void begin_threads(int most = 100, int first = 0) {
    for (int thread = first; thread < kThreads; thread++) std::thread(call_on, thread, most).detach();
    for (int thread = first; thread < kThreads; thread++) {
        while (returned[thread].load() < most / 4) std::this_thread::yield();
    }
}

// Sessions that begin soon.
inline nanolog::Options small() {
    nanolog::Options options;
    options.ring = 1024;
    options.writers = 8;
    return options;
}

// Prints how many calls of each thread had returned; also from a signal handler.
inline void print_returned() {
    char text[100];
    const int len = std::snprintf(text, sizeof text, "%d %d %d %d\n", returned[0].load(), returned[1].load(),
                                  returned[2].load(), returned[3].load());
    CHECK(write(STDOUT_FILENO, text, static_cast<std::size_t>(len)) == len);
}

inline void call_lines() {
    for (int line = 0; line < kLines; line++) NANO_LOG(NOTICE, "line %d", line);
}

// ---- ends

// A handler that ends the program.
inline void exit_of_handler(int) {
    print_returned();
    std::exit(7);
}

[[gnu::noinline]] inline void fault(const char *how) {
    static volatile int *nowhere = nullptr;
    if (std::strcmp(how, "null") == 0) *nowhere = 1;
    if (std::strcmp(how, "abort") == 0) std::abort();
    if (std::strcmp(how, "throw") == 0) throw std::runtime_error("thrown");
    std::raise(std::atoi(how));
}

// The descriptor that leads to the log, or -1.
inline int descriptor_of_log() {
    struct stat wanted, found;
    CHECK(stat(kLog, &wanted) == 0);
    for (int descriptor = 3; descriptor < 256; descriptor++) {
        if (fstat(descriptor, &found) != 0) continue;
        if (found.st_ino == wanted.st_ino && found.st_dev == wanted.st_dev) return descriptor;
    }
    return -1;
}
inline bool has_log() { return descriptor_of_log() >= 0; }

// ---- cases

struct Case {
    const char *name;
    void (*run)();
};

// Runs the case that the first argument names; the second one is its word.
template <std::size_t Count>
int run_case(const Case (&cases)[Count], int count, char **words) {
    CHECK(count == 2 || count == 3);
    if (count == 3) word = words[2];
    const rlimit none = {0, 0};
    CHECK(setrlimit(RLIMIT_CORE, &none) == 0);
    for (const Case &one : cases) {
        if (std::strcmp(words[1], one.name) == 0) {
            one.run();
            return 0;
        }
    }
    CHECK(!"a case has this name");
    return 1;
}
