// How threads wait for each other, for so long at most. It is part of nanolog.hpp.
#pragma once

#include <sys/syscall.h>
#include <unistd.h>

#include <atomic>
#include <cerrno>
#include <climits>
#include <cstdint>
#include <ctime>

#include "nanolog_basics.hpp"

namespace nanolog {
inline namespace version_1 {
namespace detail {

constexpr std::uint64_t kMillisecond = kSecond / 1000;

// The time by CLOCK_MONOTONIC until which something may take so long, from now on.
inline std::uint64_t time_after(std::uint64_t nanos) {
    const std::uint64_t now = nanos_of(CLOCK_MONOTONIC);
    return nanos < UINT64_MAX - now ? now + nanos : UINT64_MAX;
}

// Takes a mutex, if it is free until then.
class TimedLock {
   public:
    TimedLock(pthread_mutex_t &mutex, std::uint64_t until) : mutex_(mutex) {
        Patience patience;
        locks++;
        while (!(is_had_ = pthread_mutex_trylock(&mutex_) == 0) && nanos_of(CLOCK_MONOTONIC) < until) patience.wait();
    }
    ~TimedLock() {
        if (is_had_) pthread_mutex_unlock(&mutex_);
        locks--;
    }
    TimedLock(const TimedLock &) = delete;
    TimedLock &operator=(const TimedLock &) = delete;

    bool is_had() const { return is_had_; }

   private:
    pthread_mutex_t &mutex_;
    bool is_had_ = false;
};

// A bell at which any number of threads may wait. Ringing and waiting take no lock, leave errno, are no points of
// cancellation, and are allowed in signal handlers.
class Bell {
   public:
    // How often it was rung.
    std::uint32_t rings() const { return rings_.load(); }

    void ring() {
        const int error = errno;
        rings_.fetch_add(1);
        syscall(SYS_futex, &rings_, kWake, INT_MAX, nullptr, nullptr, 0);
        errno = error;
    }

    // Waits for so long at most, unless it was rung since it had so many rings.
    void wait(std::uint32_t rings, std::uint64_t nanos) const {
        const int error = errno;
        timespec time{};
        time.tv_sec = static_cast<time_t>(nanos / kSecond);
        time.tv_nsec = static_cast<long>(nanos % kSecond);
        syscall(SYS_futex, &rings_, kWait, rings, &time, nullptr, 0);
        errno = error;
    }

   private:
    // The operations of futex(2) among the threads of one process. A wait goes by CLOCK_MONOTONIC.
    static constexpr int kWait = 128;
    static constexpr int kWake = 129;

    std::atomic<std::uint32_t> rings_{0};
};

// What threads ask of another one: each time has a number, higher than that before. Asking, waiting and telling are
// allowed in signal handlers.
class Errand {
   public:
    static constexpr std::uint64_t kLast = UINT64_MAX;

    std::uint64_t ask() { return asked_.fetch_add(1) + 1; }
    std::uint64_t asked() const { return asked_.load(); }
    std::uint64_t done() const { return done_.load(); }

    // All up to this number are done.
    void tell(std::uint64_t number) {
        if (done_.load() == number) return;
        done_.store(number);
        bell_.ring();
    }

    // Waits for it until this time, and answers whether it is done.
    bool wait(std::uint64_t number, std::uint64_t until) const {
        for (;;) {
            const std::uint32_t rings = bell_.rings();
            if (done_.load() >= number) return true;
            const std::uint64_t now = nanos_of(CLOCK_MONOTONIC);
            if (now >= until) return false;
            bell_.wait(rings, until - now);
        }
    }

    // In the child of a fork: what is under way is over.
    void lose() { done_.store(kLast); }

   private:
    std::atomic<std::uint64_t> asked_{0}, done_{0};
    Bell bell_;
};

}  // namespace detail
}  // namespace version_1
}  // namespace nanolog
