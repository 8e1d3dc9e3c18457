// How the times of a session's lines are kept right. It is part of nanolog.hpp.
#pragma once

#include <atomic>
#include <cstddef>
#include <cstdint>
#include <ctime>

#include "nanolog.h"
#include "nanolog_hub.hpp"
#include "nanolog_waiting.hpp"

namespace nanolog {
inline namespace version_1 {
namespace detail {

// Numbers of 64 bits, their differences, and these times a second.
__extension__ typedef __int128 Wide;

// The clock by which a session's calls are stamped, and real time; null stands for those of the system.
struct Timing {
    std::uint64_t (*clock)();
    std::uint64_t (*real_time)();
    std::uint64_t rate;
    bool is_kept;  // whether the two are compared

    std::uint64_t ticks() const { return clock != nullptr ? clock() : nanos_of(CLOCK_MONOTONIC); }
    std::uint64_t nanos() const { return real_time != nullptr ? real_time() : nanos_of(CLOCK_REALTIME); }
};

// Real time, and what the clock was at just before and just behind that.
struct Reading {
    std::uint64_t first = 0, nanos = 0, last = 0;

    std::uint64_t ticks() const { return first + (last - first) / 2; }
};

// Reads both, and answers whether the clock's readings lie so close together that they go with that time. Where the
// thread was held up between them, it is tried again, a few times.
inline bool read_both(const Timing &timing, Reading &reading) {
    constexpr int turns = 5;
    constexpr Wide close = 50000;
    for (int turn = 0; turn < turns; turn++) {
        reading.first = timing.ticks();
        reading.nanos = timing.nanos();
        reading.last = timing.ticks();
        if (reading.last >= reading.first) {
            if (Wide{reading.last - reading.first} * kSecond <= close * timing.rate) return true;
        } else {
            reading.last = reading.first;
        }
    }
    return false;
}

// Reads both where a session begins.
inline Reading read_first(const Timing &timing) {
    Reading reading;
    if (timing.is_kept) {
        read_both(timing, reading);
    } else {
        reading.first = reading.last = timing.ticks();
        reading.nanos = timing.nanos();
    }
    return reading;
}

// Compares the two once a second, and tells the log of another clock where they have moved apart. It belongs to the
// thread that pumps. Clocks are told, and handed on to another handle, by who has the handle.
class Times {
   public:
    struct Clock {
        std::uint64_t tick, nanos;
    };

    // What it keeps in mind, which is the caller's to give it.
    static constexpr std::size_t kRoom = NANOLOG_MAX_CLOCKS * sizeof(Clock);

    // Real time is so many nanoseconds in front of what the function says that reads it.
    void begin(const Timing &timing, Clock first, Wide ahead) {
        timing_ = timing;
        first_ = first;
        ahead_ = ahead;
        next_ = timing.is_kept ? nanos_of(CLOCK_MONOTONIC) + kSecond : kNever;
    }

    void keep_in(void *room) { told_ = static_cast<Clock *>(room); }

    // Looks whether another clock is wanted, if that is due at this time of the system's clock. It answers true, once,
    // where no other one can be told.
    bool compare(std::uint64_t now) {
        if (now < next_) return false;
        next_ = now + kSecond;
        Reading reading;
        if (!reads(reading) || !is_apart(reading)) return false;
        if (count_ == NANOLOG_MAX_CLOCKS) {
            next_ = kNever;
            return true;
        }
        // From a tick behind the reading on: no call that was taken has such a stamp, if the clock doesn't fall.
        wanted_ = {reading.ticks() + 1, static_cast<std::uint64_t>(real_of(reading) + tick())};
        is_wanted_ = true;
        return false;
    }

    // Tells the clock that is wanted. Where it comes too late, both are read again soon.
    void tell(void **handle) {
        if (!is_wanted_) return;
        is_wanted_ = false;
        const std::int32_t answer = nanolog_clock(handle, wanted_.tick, wanted_.nanos, timing_.rate);
        if (answer == NANOLOG_OK) told_[count_++] = wanted_;
        if (answer == NANOLOG_REACHED) next_ = 0;
    }

    // Tells all clocks that were told, of a handle that takes the place of the one before.
    void tell_again(void **handle) const {
        for (std::uint32_t at = 0; at < count_; at++) {
            nanolog_clock(handle, told_[at].tick, told_[at].nanos, timing_.rate);
        }
    }

   private:
    static constexpr std::uint64_t kNever = UINT64_MAX;

    // Reads both on the consumer's thread. A statement in one of the program's functions would have it wait for itself,
    // and is refused; what they throw is left to the next second.
    bool reads(Reading &reading) const {
        class Inside {
           public:
            Inside() { mine.is_inside = true; }
            ~Inside() { mine.is_inside = false; }
        };
        const Inside inside;
#ifdef __cpp_exceptions
        try {
            return read_both(timing_, reading);
        } catch (...) {
            return false;
        }
#else
        return read_both(timing_, reading);
#endif
    }

    Wide tick() const { return kSecond / timing_.rate; }
    Wide real_of(const Reading &reading) const { return reading.nanos + ahead_; }

    // What time the last clock says it was at a tick.
    Wide time_of(std::uint64_t tick) const {
        const Clock &last = count_ != 0 ? told_[count_ - 1] : first_;
        return last.nanos + (Wide{tick} - last.tick) * kSecond / timing_.rate;
    }

    // Whether real time is more than a millisecond away from what the last clock says, and more than the length of a
    // tick, which that leaves open; and whether another clock could be told from there on.
    bool is_apart(const Reading &reading) const {
        constexpr Wide most = kMillisecond;
        const std::uint64_t ticks = reading.ticks(), last = count_ != 0 ? told_[count_ - 1].tick : first_.tick;
        const Wide real = real_of(reading);
        if (ticks < last || ticks == kNever || real < 0 || real + tick() > Wide{UINT64_MAX}) return false;
        return real < time_of(reading.first) - tick() - most || real > time_of(reading.last) + tick() + most;
    }

    Timing timing_{};
    Clock first_{};
    Wide ahead_ = 0;
    std::uint64_t next_ = kNever;  // when the two are compared
    Clock *told_ = nullptr;
    std::uint32_t count_ = 0;  // so many were told
    Clock wanted_{};
    bool is_wanted_ = false;
};

}  // namespace detail
}  // namespace version_1
}  // namespace nanolog
