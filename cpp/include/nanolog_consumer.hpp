// The thread that writes a session's log. It is part of nanolog.hpp.
#pragma once

#include <pthread.h>
#include <signal.h>

#include <atomic>
#include <cerrno>
#include <cstddef>
#include <cstdint>
#include <cstdlib>

#include "nanolog.h"
#include "nanolog_file.hpp"
#include "nanolog_hub.hpp"
#include "nanolog_times.hpp"
#include "nanolog_waiting.hpp"

namespace nanolog {
inline namespace version_1 {
namespace detail {

// Pumps the bytes of the log into a buffer, and writes them, and keeps the log's times right. Once the file has failed
// it pumps on and throws away, so that no thread waits for room for ever. Other threads talk with it by atomics and
// bells alone, so that nothing that holds one of them up, as a fork, a crash or a signal handler may, holds up the
// others.
class Consumer {
   public:
    Consumer() = default;
    Consumer(const Consumer &) = delete;
    Consumer &operator=(const Consumer &) = delete;

    // Finds the log's file, and opens it. Each answers false where another session writes it.
    bool find_file(const char *name, bool quiet, std::uint64_t part_bytes, std::uint32_t parts) {
        return file_.find(name, quiet, part_bytes, parts);
    }
    bool open_file() { return file_.open(); }

    // Starts the thread for a consumer's handle, of which so many bytes may wait in the rings, and answers an errno.
    // Where the thread can't be started, the file is closed, and the handle is still the caller's.
    int start(void *handle, const Times &times, std::uint64_t most_bytes) {
        most_bytes_ = most_bytes;
        buffer_ = static_cast<std::uint8_t *>(std::malloc(kRoom + Times::kRoom));
        times_ = times;
        times_.keep_in(buffer_ + kRoom);
        handle_.store(handle);
        // The thread handles no signal of the program's, and none that its own writes raise ends the program.
        sigset_t all, before;
        sigfillset(&all);
        pthread_sigmask(SIG_SETMASK, &all, &before);
        const int failed = buffer_ != nullptr ? pthread_create(&thread_, nullptr, &Consumer::run, this) : ENOMEM;
        pthread_sigmask(SIG_SETMASK, &before, nullptr);
        if (failed == 0) return 0;
        std::free(buffer_);
        file_.close();
        return failed;
    }

    // Goes on with another handle, and answers the old one. Both are of sessions in which nothing was logged, so what
    // was pumped of this part of the one are the first bytes of the other, too: no clock stands in front of the first
    // call, and where the part ends, it ends with the same marks.
    void *exchange(void *handle) {
        Patience patience;
        void *old = nullptr;
        while ((old = handle_.exchange(nullptr)) == nullptr) patience.wait();
        if (is_ending_) nanolog_next_part(&handle);
        std::uint8_t again[64];
        for (std::uint64_t left = given_; left != 0;) {
            const std::int64_t answer = nanolog_pump(&handle, again, left < sizeof again ? left : sizeof again);
            if (answer <= 0) break;
            left -= static_cast<std::uint64_t>(answer);
        }
        times_.tell_again(&handle);
        handle_.store(handle);
        return old;
    }

    // ---- what calls ask of it

    // Wakes the thread where it sleeps.
    void hurry() {
        if (is_napping_.load(std::memory_order_relaxed)) bell_.ring();
    }

    // Whether calls don't wait for room any more.
    bool is_given_up() const { return is_given_up_.load(std::memory_order_relaxed); }
    void give_up() { is_given_up_.store(true); }

    // ---- what flushes, ends and crashes ask of it; allowed in signal handlers

    // Asks for a flush, and answers its number.
    std::uint64_t ask() {
        const std::uint64_t number = flushes_.ask();
        bell_.ring();
        return number;
    }

    // Waits for a flush until this time, and answers whether it is done: what was logged before it was asked for is
    // handed to the system.
    bool wait(std::uint64_t number, std::uint64_t until) const { return flushes_.wait(number, until); }

    // Waits for the end of the thread, which comes when all writers have ended.
    bool wait_for_end(std::uint64_t until) {
        ask();
        return wait(Errand::kLast, until);
    }

    // Begins a new part of the log, and answers whether it has begun by then.
    bool rotate(std::uint64_t until) {
        if (!file_.is_parted()) return false;
        const std::uint64_t number = turns_.ask();
        bell_.ring();
        return turns_.wait(number, until) && refused_.load() < number;
    }

    bool is_this_thread() const { return pthread_equal(thread_, pthread_self()) != 0; }

    // About how many bytes it has pumped since it last found that nothing waited.
    std::uint64_t pumped() const { return pumped_.get(); }

    std::uint64_t written() const { return file_.written(); }
    std::uint64_t unwritten() const { return file_.unwritten(); }
    int error() const { return file_.error(); }
    bool is_failing() const { return file_.is_failing(); }

    // ---- its end

    // Gives up all that it has, once its end has come.
    void join() {
        pthread_join(thread_, nullptr);
        nanolog_free(handle_.load());
        std::free(buffer_);
    }

    // Leaves the thread alone, with all that it has.
    void leave() {
        give_up();
        pthread_detach(thread_);
    }

    // In the child of a fork there is no such thread. What calls and flushes are under way are over.
    void lose() {
        give_up();
        file_.leave();
        refused_.store(Errand::kLast);
        turns_.lose();
        flushes_.lose();
    }

   private:
    static constexpr std::size_t kRoom = 1 << 20;
    // How long it sleeps where nothing waits: at first, at most, and at most after a second in which nothing came.
    static constexpr std::uint64_t kLeastNap = kMillisecond / 5;
    static constexpr std::uint64_t kMostNap = 5 * kMillisecond;
    static constexpr std::uint64_t kMostDoze = 100 * kMillisecond;
    static constexpr const char *kOutOfClocks = "255 clocks were told; times don't follow real time any more";

    static void *run(void *self) {
        pthread_setname_np(pthread_self(), "nanolog");
        static_cast<Consumer *>(self)->consume();
        return nullptr;
    }

    void consume() {
        for (;;) {
            const std::uint32_t rings = bell_.rings();
            const std::uint64_t asked = flushes_.asked(), turns = turns_.asked();
            std::size_t filled = 0;
            const std::int64_t answer = pump(filled);
            file_.write(buffer_, filled);
            pumped_.add(filled);
            if (answer == NANOLOG_PART_OVER) {
                begin_part();
            } else if (answer < 0) {
                return end();
            }
            if (filled != 0) wake_up();
            if (answer == 0) {
                pumped_.set(0);
                flushes_.tell(asked);
            }
            wait_for_turn(turns, answer == 0, filled);
            // Nobody waits for it here, and nothing is taken until the next round has told what comes of it. Where the
            // thread is left alone, the program's functions may be gone.
            const std::uint64_t now = nanos_of(CLOCK_MONOTONIC);
            if (!is_given_up() && times_.compare(now)) file_.remark(kOutOfClocks);
            if (answer == 0 && !is_turn()) rest(rings, now);
        }
    }

    // Pumps until the buffer is full or nothing waits, and answers what the last pump did. Another clock is told first.
    // Who has taken the handle has it until he puts it back.
    std::int64_t pump(std::size_t &filled) {
        Patience patience;
        void *handle = nullptr;
        while ((handle = handle_.exchange(nullptr)) == nullptr) patience.wait();
        times_.tell(&handle);
        std::int64_t answer = 1;
        while (filled < kRoom) {
            if (!is_ending_ && wants_part()) is_ending_ = nanolog_next_part(&handle) == NANOLOG_OK;
            answer = nanolog_pump(&handle, buffer_ + filled, kRoom - filled);
            if (answer <= 0) break;
            const auto len = static_cast<std::size_t>(answer);
            if (!front_.has_extent()) front_.walk(buffer_ + filled, len, UINT64_MAX);
            filled += len;
            given_ += len;
        }
        if (answer == NANOLOG_PART_OVER) {
            front_ = Blocks();
            given_ = 0;
            is_ending_ = false;
        }
        handle_.store(handle);
        return answer;
    }

    void end() {
        file_.close();
        refused_.store(Errand::kLast);
        turns_.tell(Errand::kLast);
        flushes_.tell(Errand::kLast);
    }

    // ---- parts

    // Whether somebody has asked for a new part, and it is time for it.
    bool is_turn() const { return turn_ > turns_.done(); }

    // A new part that is asked for begins when what was logged before was taken, or where threads log without a pause,
    // as much as the rings hold.
    void wait_for_turn(std::uint64_t turns, bool is_empty, std::size_t filled) {
        taken_ = turns != turns_.done() ? taken_ + filled : 0;
        if (turns == turns_.done()) return;
        if (!is_empty && taken_ < most_bytes_) return;
        turn_ = turns;
        taken_ = 0;
    }

    // Whether a new part is to begin, for which there is a file. One that nobody asked for has calls before it ends.
    bool wants_part() {
        if (!is_turn() && !file_.is_due(front_.has_extent() ? given_ : 0)) return false;
        begun_ = turn_;
        if (file_.prepare()) return true;
        tell_turn(false);
        return false;
    }

    void begin_part() { tell_turn(file_.next_part()); }

    // Tells those who have asked for a part that it has begun, or hasn't.
    void tell_turn(bool has_begun) {
        if (begun_ <= turns_.done()) return;
        if (!has_begun) refused_.store(begun_);
        turns_.tell(begun_);
    }

    // ---- sleep

    void wake_up() {
        nap_ = kLeastNap;
        came_ = 0;
        if (is_dozing_) doze(0);
    }

    // Has who logs know of a doze, of this number, or that there is none.
    void doze(std::uint32_t number) {
        is_dozing_ = number != 0;
        if (is_given_up()) return;
        std::uint32_t before = hub.attention.load();
        while (!hub.attention.compare_exchange_weak(before, before % Hub::kDoze + number * Hub::kDoze)) {
        }
    }

    // Sleeps where it wasn't rung since then. A doze begins a round before its first sleep: who logs has to know of it
    // before the thread last looks whether something waits.
    void rest(std::uint32_t rings, std::uint64_t now) {
        if (came_ == 0) came_ = now;
        if (nap_ > kMostNap && !is_dozing_) return doze(++dozes_);
        is_napping_.store(true);
        bell_.wait(rings, nap_);
        is_napping_.store(false);
        const std::uint64_t most = now - came_ < kSecond ? kMostNap : kMostDoze;
        nap_ = 2 * nap_ < most ? 2 * nap_ : most;
    }

    std::atomic<void *> handle_{nullptr};
    std::uint64_t given_ = 0;  // bytes of the part that it gave
    Blocks front_;             // as far as there are no calls among them
    bool is_ending_ = false;   // the part ends
    std::uint8_t *buffer_ = nullptr;
    Times times_;
    LogFile file_;
    pthread_t thread_{};
    std::uint64_t nap_ = kLeastNap;
    std::uint64_t came_ = 0;  // when it found that nothing waits, behind what came last
    std::uint32_t dozes_ = 0;
    bool is_dozing_ = false;
    Count pumped_;

    Errand flushes_, turns_;
    Bell bell_;
    // Of the parts that were asked for: the last one that may begin, that has begun, and that couldn't; and how many
    // bytes were taken since the next one was asked for.
    std::uint64_t turn_ = 0, begun_ = 0;
    std::atomic<std::uint64_t> refused_{0};
    std::uint64_t taken_ = 0, most_bytes_ = 0;

    std::atomic<bool> is_napping_{false}, is_given_up_{false};
};

}  // namespace detail
}  // namespace version_1
}  // namespace nanolog
