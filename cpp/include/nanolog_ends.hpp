// How sessions begin, are flushed and end: when they are closed, with the program, and in the child of a fork. It is
// part of nanolog.hpp.
#pragma once

#include <pthread.h>

#include <atomic>
#include <cstdint>
#include <utility>

#include "nanolog_core.hpp"
#include "nanolog_crash.hpp"
#include "nanolog_writers.hpp"

namespace nanolog {
inline namespace version_1 {
namespace detail {

// The mutex is had.
inline void set_level(Severity level) {
    hub.level.store(level == Severity::Off ? Hub::kNothing : static_cast<int>(level));
}

// ---- flushes and parts

// Holds up the calls of all threads, but for those that are being made. It may be done again.
inline void hold(Core &core, bool &is_holding) {
    const Lock lock(hub.mutex);
    if (core.stage.load() != Stage::Open) return;
    if (!std::exchange(is_holding, true)) hub.holders++;
    for (std::uint32_t number = 0; number < hub.opened; number++) {
        enter(hub.slot[number], core.free_state, core.free_state + kHeld);
    }
}

inline void let_go(Core &core) {
    const Lock lock(hub.mutex);
    if (hub.core.load() != &core || --hub.holders != 0) return;
    for (std::uint32_t number = 0; number < hub.opened; number++) {
        std::uint64_t held = core.free_state + kHeld;
        hub.slot[number].state.compare_exchange_strong(held, core.free_state);
    }
}

// About how many bytes of a log the rings can hold: a record takes no more than nine for each word.
inline std::uint64_t most_bytes() {
    const Lock lock(hub.mutex);
    return (hub.opened + 1) * hub.setup.ring * 9;
}

// Waits until all that was logged before is handed to the system, so long at most, and answers whether that took it.
// Where more was pumped meanwhile than the rings hold, since others log without a pause, their calls are held up.
inline bool flush(Core &core, std::uint64_t nanos) {
    constexpr std::uint64_t patience = 20 * kMillisecond;
    if (core.stage.load() != Stage::Open) return false;
    const std::uint64_t until = time_after(nanos), unwritten = core.consumer.unwritten();
    const std::uint64_t number = core.consumer.ask();
    bool is_holding = false, is_done = false;
    for (;;) {
        const std::uint64_t next = time_after(patience);
        is_done = core.consumer.wait(number, next < until ? next : until);
        if (is_done || next >= until) break;
        if (locks != 0) continue;
        if (is_holding || core.consumer.pumped() > most_bytes()) hold(core, is_holding);
    }
    if (is_holding) let_go(core);
    return is_done && !core.consumer.is_failing() && core.consumer.unwritten() == unwritten;
}

// Begins a new part of the log, and answers whether that took so long at most.
inline bool rotate(Core &core, std::uint64_t nanos) {
    return core.stage.load() == Stage::Open && core.consumer.rotate(time_after(nanos));
}

// ---- ends

// The program is at its end, so that nothing is given back any more.
inline std::atomic<bool> is_last [[gnu::visibility("default")]]{false};

// Closes a slot, if no call is being made with it, and answers whether it is closed.
inline bool close_slot(Slot &slot, std::uint64_t free_state) {
    std::uint64_t held = free_state + kHeld;
    const std::uint64_t found = enter(slot, free_state, kClosed);
    return found == free_state || found == kClosed || slot.state.compare_exchange_strong(held, kClosed);
}

// Closes all slots, each once the call that is being made with it is over, and answers whether that was so until then.
// A call of this thread is one that a signal handler has interrupted to end the program: it won't be over.
inline bool close_slots(const Core &core, std::uint64_t until) {
    Patience patience;
    for (;;) {
        bool are_closed = true;
        {
            const Lock lock(hub.mutex);
            for (std::uint32_t number = 0; number < hub.opened; number++) {
                Slot &slot = hub.slot[number];
                are_closed = (close_slot(slot, core.free_state) || &slot == mine.slot) && are_closed;
            }
        }
        if (are_closed || nanos_of(CLOCK_MONOTONIC) >= until) return are_closed;
        patience.wait();
    }
}

// From now on no thread takes a writer. It answers false where the mutex isn't free until then.
inline bool close_hub(Core &core, std::uint64_t until) {
    const TimedLock lock(hub.mutex, until);
    if (!lock.is_had()) return false;
    core.session = std::exchange(hub.session, nullptr);
    return true;
}

// Closes the session to all calls, and answers whether no call stands still in it. Calls wait for room no longer than
// until then.
inline bool close_to_calls(Core &core, std::uint64_t until) {
    constexpr std::uint64_t grace = kSecond / 2;
    hub.level.store(0);
    if (!close_hub(core, until)) core.consumer.give_up();
    if (core.session == nullptr && !close_hub(core, time_after(grace))) return false;
    if (!close_slots(core, until)) {
        core.consumer.give_up();
        close_slots(core, time_after(grace));
    }
    bool are_closed = true;
    for (std::uint32_t number = 0; number < hub.opened; number++) {
        Slot &slot = hub.slot[number];
        if (slot.state.load(std::memory_order_acquire) == kClosed) {
            nanolog_finish(&slot.writer);
        } else {
            are_closed = false;
        }
    }
    nanolog_end(&core.session);
    return are_closed;
}

// Gives up what the session has, once all is written. At the end of the program it stays: a signal handler that ends it
// may have interrupted an allocation.
inline void give_up_all(Core &core) {
    if (is_last.load()) return core.consumer.leave();
    core.consumer.join();
    for (std::uint32_t number = 0; number < hub.opened; number++) {
        nanolog_free(std::exchange(hub.slot[number].writer, nullptr));
    }
    nanolog_free(std::exchange(core.session, nullptr));
}

// Leaves with the consumer what it may need.
inline void leave_handles(Core &core) {
    for (std::uint32_t number = 0; number < hub.opened; number++) {
        core.writer[number] = std::exchange(hub.slot[number].writer, nullptr);
    }
}

// Ends the session that is open, until then.
inline void end_writing(Core &core, std::uint64_t until) {
    const bool are_closed = close_to_calls(core, until);
    const bool is_over = are_closed && core.consumer.wait_for_end(until);
    const bool is_written = is_over || (!are_closed && core.consumer.wait(core.consumer.ask(), until));
    leave_crashes();
    if (is_over) {
        give_up_all(core);
    } else if (are_closed) {
        core.consumer.leave();
        leave_handles(core);
    }
    const TimedLock lock(hub.mutex, time_after(kSecond));
    count(core, core.report);
    core.report.sessionless = count_all_sessionless(true);
    core.report.timed_out = !is_written;
    hub.core.store(nullptr);
    hub.attention.store(0);
    // Where a call stands still, its slot and what it looks at are still in use.
    hub.is_taken = !are_closed;
    if (is_over && !is_last.load()) delete std::exchange(core.directory, nullptr);
    core.stage.store(Stage::Over);
}

// Ends a session, so long at most. Who comes while another one does so waits for that.
inline void end(Core &core, std::uint64_t nanos) {
    const std::uint64_t until = time_after(nanos);
    Stage found = core.stage.load();
    if (found == Stage::Over) return;
    if (locks != 0 || mine.is_ending) {
        // A signal handler ends the program, and has interrupted its thread where that has a mutex of ours.
        hub.level.store(0);
        if (found != Stage::Made) core.consumer.wait(core.consumer.ask(), until);
        return;
    }
    if (found == Stage::Made) {
        // It couldn't begin, or another thread is still about to begin it.
        const Lock lock(hub.mutex);
        if (core.stage.compare_exchange_strong(found, Stage::Over)) {
            core.report.sessionless = count_all_sessionless(true);
            return;
        }
    }
    found = Stage::Open;
    if (core.stage.compare_exchange_strong(found, Stage::Ending)) {
        mine.is_ending = true;
        end_writing(core, until);
        mine.is_ending = false;
        core.over.ring();
        return;
    }
    for (std::uint32_t rings = core.over.rings(); core.stage.load() == Stage::Ending; rings = core.over.rings()) {
        const std::uint64_t now = nanos_of(CLOCK_MONOTONIC);
        if (now >= until) return;
        core.over.wait(rings, until - now);
    }
}

// ---- the program

inline void end_all() {
    is_last.store(true);
    for (Core *core = cores.load(); core != nullptr; core = core->next) {
        end(*core, core->limit);
        tell(*core);
    }
}

// The child of a fork has its own thread alone, and no session. What the other threads were doing may stand half done
// in its memory, so all is made anew but for the numbers of sessions.
inline void begin_child() {
    const Report nothing;
    hub.level.store(0);
    hub.attention.store(0);
    count_all_sessionless(true);
    leave_crashes();
    if (locks == 0) {
        pthread_mutex_init(&hub.mutex, nullptr);
        pthread_mutex_init(&hub.shared_mutex, nullptr);
        pthread_mutex_init(&registry.mutex, nullptr);
    }
    for (Core *core = cores.load(); core != nullptr; core = core->next) {
        if (core->stage.load() != Stage::Over) {
            core->consumer.lose();
            if (core->session == nullptr) core->session = hub.session;
            leave_handles(*core);
        }
        core->report = nothing;
        core->is_told.store(true);
        core->stage.store(Stage::Over);
    }
    hub.core.store(nullptr);
    hub.session = nullptr;
    hub.is_taken = false;
    for (std::uint32_t number = 0; number < hub.opened; number++) {
        Slot &slot = hub.slot[number];
        slot.state.store(kClosed);
        slot.other = nullptr;
    }
    hub.opened = 0;
    mine.slot = nullptr;
    mine.is_ending = false;
}

inline std::atomic<bool> are_forks_watched [[gnu::visibility("default")]]{false};

inline void watch_process() {
    if (!are_forks_watched.exchange(true)) pthread_atfork(nullptr, nullptr, &begin_child);
}

}  // namespace detail
}  // namespace version_1
}  // namespace nanolog
