// What a session is asked for, and what it tells. It is part of nanolog.hpp.
#pragma once

#include <cstddef>
#include <cstdint>
#include <new>
#include <utility>

#include "nanolog.h"
#include "nanolog_basics.hpp"

namespace nanolog {
inline namespace version_1 {

// No call has Off: as a level it leaves out all of them.
enum class Severity : unsigned char { Off, Error, Warning, Notice, Debug };

// What becomes of a call for which its ring has no room: its thread yields until there is some, or it is dropped.
enum class Policy : unsigned char { Wait, Drop };

struct Options {
    // The words of each writer's ring, of 8 bytes each, 1,024 to 1,048,576.
    std::uint64_t ring = 65536;
    // How many writers there are, 1 to 1,024, and so many rings, which have 67,108,864 words together at most. Each
    // writer but the last belongs to one thread at a time; the last is shared by all for which no other is left.
    static constexpr std::uint32_t kWriters = 64;
    std::uint32_t writers = kWriters;
    // The most calls of a block of the log, 1 to 65,536.
    std::uint32_t batch = 4096;
    // Less grave calls are left out, and their arguments aren't evaluated.
    Severity level = Severity::Debug;
    Policy policy = Policy::Wait;
    // A part of the log ends once it has so many bytes, 1 to 67,108,864. The newest part has the log's name, and the
    // others have numbers behind it. So many of these are kept, and the oldest ones go; 0 stands for all.
    static constexpr std::uint64_t kPartBytes = 67108864;
    std::uint64_t part_bytes = kPartBytes;
    std::uint32_t parts = 0;
    // Whether nothing is said on standard error.
    bool quiet = false;
    // How many milliseconds a flush, the destructor, close and the end of the program wait at most until all is written.
    std::uint32_t time_limit = 5000;
    // Calls that are as grave are printed to standard error, too; and these return once they are handed to the system,
    // or after the time limit.
    Severity echo = Severity::Off, flush_at = Severity::Off;
    // Whether what was logged is written where a fault, or an abort, ends the program.
    bool on_crash = true;
    // A clock of the program's own: several threads read it at once, also one of the session's, and it doesn't fall.
    // How many ticks it makes in a second, and how many nanoseconds since 1970 it is when the session begins, where 0
    // stands for real time.
    std::uint64_t (*clock)() = nullptr;
    std::uint64_t rate = 1000000000;
    std::uint64_t nanos = 0;
    // Real time, in nanoseconds since 1970: the system's, or that of a function, which may step.
    std::uint64_t (*real_time)() = nullptr;
    // Whether the clock is compared with real time once a second, and times follow that where the two move apart.
    bool keep_times = true;
};

// What became of the calls of a session, as far as it has come.
struct Report {
    struct Writer {
        std::uint64_t logged = 0;
        // Dropped for want of room; how many words of its ring the last of these needed, and how many were free.
        std::uint64_t dropped = 0, need = 0, room = 0;
    };

    // Those that threads have taken, by their numbers. Where there is no memory for them there are none, and each that
    // is asked for is empty.
    class Writers {
       public:
        Writers() = default;
        Writers(const Writers &other) { copy(other); }
        Writers(Writers &&other) noexcept { swap(other); }
        ~Writers() { delete[] items_; }
        Writers &operator=(const Writers &other) {
            if (this != &other) copy(other);
            return *this;
        }
        Writers &operator=(Writers &&other) noexcept {
            swap(other);
            return *this;
        }

        const Writer &operator[](std::size_t number) const { return number < size_ ? items_[number] : kNone; }
        std::size_t size() const { return size_; }
        const Writer *begin() const { return items_; }
        const Writer *end() const { return items_ + size_; }

        // Makes room for so many, which takes memory if there were never as many.
        bool reserve(std::uint32_t count) {
            if (count <= room_) return true;
            Writer *const items = new (std::nothrow) Writer[count];
            if (items == nullptr) return false;
            delete[] items_;
            items_ = items;
            room_ = count;
            size_ = 0;
            return true;
        }

        // Has so many, all empty, if there is room for them.
        void resize(std::uint32_t count) {
            size_ = count <= room_ ? count : 0;
            for (std::uint32_t number = 0; number < size_; number++) items_[number] = Writer();
        }
        void set(std::uint32_t number, const Writer &one) {
            if (number < size_) items_[number] = one;
        }

       private:
        static const Writer kNone;

        void copy(const Writers &other) {
            resize(reserve(other.size_) ? other.size_ : 0);
            for (std::uint32_t number = 0; number < size_; number++) items_[number] = other.items_[number];
        }
        void swap(Writers &other) {
            std::swap(items_, other.items_);
            std::swap(size_, other.size_);
            std::swap(room_, other.room_);
        }

        Writer *items_ = nullptr;
        std::uint32_t size_ = 0, room_ = 0;
    };

    // A file whose statements were taken out with another dictionary, and how many calls it made.
    struct Unit {
        char file[256] = "";
        std::uint64_t calls = 0;
    };
    static constexpr std::uint32_t kMostUnits = 8;

    std::uint32_t writers = 0;  // that threads have taken
    Writers writer;
    std::uint64_t logged = 0;   // by all writers
    std::uint64_t shared = 0;   // of these by the writer that is shared
    std::uint64_t written = 0;  // bytes of the log

    // Losses.
    std::uint64_t dropped = 0;      // by all writers
    std::uint64_t stale = 0;        // refused: of statements that were taken out with another dictionary
    std::uint32_t units = 0;        // the files of these, as far as they have room here
    Unit unit[kMostUnits];
    std::uint64_t unknown = 0;      // refused: of statements whose message the session's dictionary doesn't have
    std::uint64_t sizes = 0;        // refused: a width or a precision is out of its range
    std::uint64_t misfit = 0;       // refused: other arguments than the message takes
    std::uint64_t unplaced = 0;     // refused: no memory for a writer; or a signal handler's in the midst of another
    std::uint64_t sessionless = 0;  // made while there was no session
    std::uint64_t cut = 0;          // texts that were cut, since the call was too long, or at a NUL
    std::uint64_t early = 0;        // logged with the stamp of the call before, since the program's clock fell
    std::uint64_t unwritten = 0;    // bytes of the log, while the file failed
    int error = 0;                  // how it failed last, as errno has it
    bool timed_out = false;         // the session's end came to its time limit before all was written

    bool is_clean() const {
        const std::uint64_t losses =
            dropped | stale | unknown | sizes | misfit | unplaced | sessionless | cut | early | unwritten;
        return losses == 0 && error == 0 && !timed_out;
    }
};

inline const Report::Writer Report::Writers::kNone{};

namespace detail {

inline void tell_loss(const char *name, const char *what, std::uint64_t number) {
    if (number == 0) return;
    say("nanolog: %s: %s: %llu", name, what, static_cast<unsigned long long>(number));
}

// Tells of the calls that were refused since their statements were taken out with another dictionary.
inline void tell_stale(const char *name, const Report &report) {
    std::uint64_t others = report.stale;
    for (std::uint32_t at = 0; at < report.units; at++) {
        const Report::Unit &unit = report.unit[at];
        say("nanolog: %s: calls of %s refused, which has another dictionary: %llu", name, unit.file,
                     static_cast<unsigned long long>(unit.calls));
        others -= unit.calls < others ? unit.calls : others;
    }
    tell_loss(name, "calls of other files refused, which have another dictionary", others);
}

inline void tell_dropped(const char *name, std::uint32_t number, const Report::Writer &writer) {
    if (writer.dropped == 0) return;
    say("nanolog: %s: calls of writer %u dropped: %llu, the last with need %llu room %llu", name, number,
        static_cast<unsigned long long>(writer.dropped), static_cast<unsigned long long>(writer.need),
        static_cast<unsigned long long>(writer.room));
}

// Tells of all others.
inline void tell_losses(const char *name, const Report &report) {
    tell_stale(name, report);
    tell_loss(name, "calls without a message in the session's dictionary", report.unknown);
    tell_loss(name, "calls refused, with a width or a precision out of range", report.sizes);
    tell_loss(name, "calls refused, which don't fit the dictionary", report.misfit);
    tell_loss(name, "calls refused, for which there was no writer", report.unplaced);
    tell_loss(name, "calls without a session", report.sessionless);
    tell_loss(name, "texts cut", report.cut);
    tell_loss(name, "calls whose stamps would fall", report.early);
    tell_loss(name, "bytes not written", report.unwritten);
    if (report.timed_out) say("nanolog: %s: not all was written within the time limit", name);
}

}  // namespace detail
}  // namespace version_1
}  // namespace nanolog
