// What the test programs share.
#pragma once

#include <atomic>
#include <cstddef>
#include <cstdint>
#include <cstdio>
#include <cstdlib>

// Ends the program where something isn't so.
#define CHECK(what)                                                                        \
    do {                                                                                   \
        if (!(what)) {                                                                     \
            std::fprintf(stderr, "%s:%d: this isn't so: %s\n", __FILE__, __LINE__, #what); \
            std::_Exit(1);                                                                 \
        }                                                                                  \
    } while (false)

// The dictionary of the program, where its statements were taken out.
#ifdef DICTIONARY
constexpr bool kIsInjected = true;
#else
#define DICTIONARY nullptr
constexpr bool kIsInjected = false;
#endif

// A clock that makes a tick each time when it is read, and the time at which it begins.
inline std::atomic<std::uint64_t> ticks{0};
inline std::uint64_t next_tick() { return ++ticks; }
constexpr std::uint64_t kBegin = 1700000000000000000;

// A file of the lines that `nanolog decompress` is to print of the calls of one thread, each of which takes a tick of
// that clock. `place` is the file and the line, or empty where these are left out.
class Expected {
   public:
    explicit Expected(const char *name) : file_(std::fopen(name, "w")) { CHECK(file_ != nullptr); }
    ~Expected() { std::fclose(file_); }
    Expected(const Expected &) = delete;
    Expected &operator=(const Expected &) = delete;

    template <class... Given>
    void add(const char *place, const char *severity, const char *format, Given... given) {
        static char text[100000];
        const int len = std::snprintf(text, sizeof text, format, given...);
        CHECK(len >= 0 && static_cast<std::size_t>(len) < sizeof text);
        const std::uint64_t time = kBegin + ++calls_;
        std::fprintf(file_, "%llu.%09llu %s%s[0]: ", static_cast<unsigned long long>(time / 1000000000),
                     static_cast<unsigned long long>(time % 1000000000), place, severity);
        std::fwrite(text, 1, static_cast<std::size_t>(len), file_);
        std::fputc('\n', file_);
    }

    std::uint64_t calls() const { return calls_; }

   private:
    std::FILE *file_;
    std::uint64_t calls_ = 0;
};
