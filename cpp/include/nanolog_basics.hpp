// Counters, locks, clocks, waiting, and what is said. It is part of nanolog.hpp.
#pragma once

#include <pthread.h>
#include <sched.h>
#include <unistd.h>

#include <atomic>
#include <cerrno>
#include <cstdarg>
#include <cstddef>
#include <cstdint>
#include <cstdio>
#include <ctime>

namespace nanolog {
inline namespace version_1 {
namespace detail {

// What each call reads, and what others write, stand so many bytes apart.
constexpr std::size_t kLine = 128;

// The most bytes of a file's name, with its NUL.
constexpr std::size_t kMaxPath = 4096;

// A number that one thread at a time changes, while others may read it.
class Count {
   public:
    void add(std::uint64_t number) { set(get() + number); }
    void set(std::uint64_t number) { number_.store(number, std::memory_order_relaxed); }
    std::uint64_t get() const { return number_.load(std::memory_order_relaxed); }

   private:
    std::atomic<std::uint64_t> number_{0};
};

// How many mutexes of ours this thread has, or is about to take. A signal handler that finds one here has to do
// without.
inline thread_local int locks [[gnu::visibility("default")]] = 0;

class Lock {
   public:
    explicit Lock(pthread_mutex_t &mutex) : mutex_(mutex) {
        locks++;
        pthread_mutex_lock(&mutex_);
    }
    ~Lock() {
        pthread_mutex_unlock(&mutex_);
        locks--;
    }
    Lock(const Lock &) = delete;
    Lock &operator=(const Lock &) = delete;

   private:
    pthread_mutex_t &mutex_;
};

constexpr std::uint64_t kSecond = 1000000000;

inline std::uint64_t nanos_of(clockid_t clock) {
    timespec time{};
    clock_gettime(clock, &time);
    return static_cast<std::uint64_t>(time.tv_sec) * kSecond + static_cast<std::uint64_t>(time.tv_nsec);
}

// Writes all of these bytes, where the descriptor takes them, and answers how many it took. It leaves an errno.
inline std::size_t write_all(int file, const void *bytes, std::size_t len) {
    std::size_t at = 0;
    while (at < len) {
        const ssize_t count = ::write(file, static_cast<const char *>(bytes) + at, len - at);
        if (count > 0) {
            at += static_cast<std::size_t>(count);
        } else if (count == 0 || errno != EINTR) {
            if (count == 0) errno = EIO;
            break;
        }
    }
    return at;
}

// Says a line on standard error. It takes no lock and no memory, since it is also said where a program ends.
[[gnu::format(printf, 1, 2)]] inline void say(const char *format, ...) {
    const int error = errno;
    char text[600];
    va_list values;
    va_start(values, format);
    const int len = std::vsnprintf(text, sizeof text - 1, format, values);
    va_end(values);
    if (len > 0) {
        const std::size_t wanted =
            static_cast<std::size_t>(len) < sizeof text - 1 ? static_cast<std::size_t>(len) : sizeof text - 2;
        text[wanted] = '\n';
        write_all(STDERR_FILENO, text, wanted + 1);
    }
    errno = error;
}

// Waits a little for another thread, and longer where that didn't help: another one may need the processor, and this
// one may have more right to it.
class Patience {
   public:
    void wait() {
        if (turns_ < kYields) {
            turns_++;
            sched_yield();
            return;
        }
        const timespec nap = {0, kNap};
        const int error = errno;
        int state = 0;
        pthread_setcancelstate(PTHREAD_CANCEL_DISABLE, &state);
        nanosleep(&nap, nullptr);
        pthread_setcancelstate(state, &state);
        errno = error;
    }

   private:
    static constexpr int kYields = 1000;
    static constexpr long kNap = 50000;
    int turns_ = 0;
};

}  // namespace detail
}  // namespace version_1
}  // namespace nanolog
