// The writers of a session, and calls that don't go straight into a ring. It is part of nanolog.hpp.
#pragma once

#include <pthread.h>

#include <atomic>
#include <cerrno>
#include <cstddef>
#include <cstdint>
#include <utility>

#include "nanolog.h"
#include "nanolog_consumer.hpp"
#include "nanolog_directory.hpp"
#include "nanolog_hub.hpp"

// A dictionary is never freed, which isn't to be reported as a leak of the program's.
#if defined(__SANITIZE_ADDRESS__)
#define NANOLOG_LEAKS_ARE_LOOKED_FOR
#elif defined(__has_feature)
#if __has_feature(address_sanitizer)
#define NANOLOG_LEAKS_ARE_LOOKED_FOR
#endif
#endif
#ifdef NANOLOG_LEAKS_ARE_LOOKED_FOR
extern "C" void __lsan_disable();
extern "C" void __lsan_enable();
#endif

namespace nanolog {
inline namespace version_1 {
namespace detail {

// Gives the slot of a thread back when the thread ends; not where that is in a signal handler which has interrupted a
// call of the thread.
struct Leaver {
    ~Leaver() {
        mine.has_left = true;
        if (mine.slot == nullptr || mine.is_inside || locks != 0) return;
        if (mine.slot->state.load() == mine.free_state + kBusy) return;
        const Lock lock(hub.mutex);
        if (hub.session != nullptr && hub.free_state == mine.free_state) hub.spare[hub.spares++] = mine.slot;
        mine.slot = nullptr;
    }
    void stay() {}
};
inline thread_local Leaver leaver;

// ---- all slots. The mutex is had.

// The state of a slot with which no call is being made: a flush may hold calls up.
inline std::uint64_t resting_state() { return hub.free_state + (hub.holders != 0 ? kHeld : 0); }

// Holds all slots, each when the call that is being made with it is over.
inline void hold_all() {
    Patience patience;
    const std::uint64_t held = hub.free_state + kHeld;
    for (std::uint32_t number = 0; number < hub.opened; number++) {
        for (;;) {
            const std::uint64_t found = enter(hub.slot[number], hub.free_state, held);
            if (found == hub.free_state || found == held) break;
            patience.wait();
        }
    }
}

inline void leave_all() {
    for (std::uint32_t number = 0; number < hub.opened; number++) leave(hub.slot[number], resting_state());
}

// ---- the session in C

// Opens one with the messages of the dictionary.
inline std::int32_t open_session(const Dictionary &dictionary, const Setup &setup, void **session, void **consumer,
                                 std::uint64_t *line) {
#ifdef NANOLOG_LEAKS_ARE_LOOKED_FOR
    __lsan_disable();
#endif
    const std::int32_t answer = nanolog_open(dictionary.bytes(), dictionary.len(), setup.ring, setup.writers,
                                             setup.batch, setup.tick, setup.nanos, setup.rate, session, consumer, line);
#ifdef NANOLOG_LEAKS_ARE_LOOKED_FOR
    __lsan_enable();
#endif
    return answer;
}

inline bool is_unlogged() {
    for (std::uint32_t number = 0; number < hub.opened; number++) {
        if (hub.slot[number].logged.get() != 0) return false;
    }
    return true;
}

inline void show_entries() {
    hub.entries = hub.directory->entries();
    hub.places = hub.directory->places();
}

// Begins the session anew, with the statements that were registered since. Nothing was logged yet, and all slots are
// held. Where there is no memory it goes on as it was.
inline void begin_anew() {
    Directory &directory = *hub.directory;
    directory.take_in();
    void *session = nullptr, *consumer = nullptr;
    std::uint64_t line = 0;
    bool is_open = open_session(directory.dictionary, hub.setup, &session, &consumer, &line) == NANOLOG_OK;
    for (std::uint32_t number = 0; is_open && number < hub.opened; number++) {
        is_open = nanolog_writer(&session, &hub.slot[number].other) == NANOLOG_OK;
    }
    is_open = is_open && directory.make_entries(&session, directory.dictionary.count());
    if (is_open) {
        show_entries();
        std::swap(hub.session, session);
        for (std::uint32_t number = 0; number < hub.opened; number++) {
            std::swap(hub.slot[number].writer, hub.slot[number].other);
        }
        consumer = hub.consumer->exchange(consumer);
    }
    for (std::uint32_t number = 0; number < hub.opened; number++) {
        nanolog_free(std::exchange(hub.slot[number].other, nullptr));
    }
    nanolog_free(session);
    nanolog_free(consumer);
}

// Sees to it that a statement has an entry that says what the session has for it. It answers false where there is no
// memory for one.
inline bool find_entry(Site &site) {
    Directory &directory = *hub.directory;
    registry.add(site);
    if ((hub.opened == 0 || !directory.has(site.message)) && directory.has_grown() && is_unlogged()) {
        hold_all();
        if (is_unlogged()) begin_anew();
        leave_all();
    }
    const std::uint32_t place = site.place.load();
    if (place == 0) return false;
    if (place >= hub.places) {
        hold_all();
        const bool is_made = directory.make_entries(&hub.session, directory.messages());
        show_entries();
        leave_all();
        return is_made;
    }
    directory.resolve_late(&hub.session, place);
    return true;
}

// ---- slots. The mutex is had.

// A slot with a new writer, or null where there is none, or no memory for it.
inline Slot *open_slot() {
    if (hub.opened == hub.setup.writers) return nullptr;
    Slot &slot = hub.slot[hub.opened];
    if (nanolog_writer(&hub.session, &slot.writer) != NANOLOG_OK) return nullptr;
    hub.opened++;
    slot.last_stamp = hub.setup.tick;
    for (Count *count : {&slot.logged, &slot.dropped, &slot.need, &slot.room, &slot.misfit, &slot.sizes, &slot.cut,
                         &slot.early, &slot.unknown, &slot.stale}) {
        count->set(0);
    }
    leave(slot, resting_state());
    return &slot;
}

// Takes a slot for this thread alone, if there is one; the last one is for all.
inline bool take_slot() {
    const std::uint32_t owned = hub.opened - (hub.shared != nullptr ? 1 : 0);
    Slot *slot = nullptr;
    if (mine.has_left) return false;
    if (hub.spares > 0) {
        slot = hub.spare[--hub.spares];
    } else if (owned + 1 < hub.setup.writers) {
        slot = open_slot();
    }
    if (slot == nullptr) return false;
    mine.slot = slot;
    mine.free_state = hub.free_state;
    return true;
}

// ---- calls that weren't taken

// What becomes of a call whose statement has no id. It answers whether the call is over.
inline bool go_without(Slot &slot, const Call &call, std::uint32_t id) {
    if (id == kUnresolved) return false;
    if (id == kStale) {
        slot.stale.add(1);
        hub.directory->count_stale(call.site.message.file);
    } else {
        slot.unknown.add(1);
    }
    return true;
}

// Goes on with a call that the archive didn't take: waits for room, cuts its texts, or counts why it isn't logged.
inline void go_on(Slot &slot, Call &call, const Try &first) {
    std::uint8_t room[kCutRoom];
    Patience patience;
    bool is_cut = false;
    for (Try now = first;;) {
        if (now.answer == NANOLOG_OK) {
            slot.logged.add(1);
            if (call.cut != 0) slot.cut.add(call.cut);
            return;
        }
        if (now.answer == NANOLOG_FULL) {
            hub.consumer->hurry();
            if (hub.drops || hub.consumer->is_given_up()) {
                slot.dropped.add(1);
                slot.need.set(now.need);
                slot.room.set(now.room);
                return;
            }
            patience.wait();
        } else if (!is_cut) {
            is_cut = true;
            const std::uint64_t cut = cut_texts(call.args, call.count, room);
            if (cut == 0) break;
            call.cut += cut;
        } else {
            break;
        }
        now.answer = hub.functions.take(&slot.writer, now.stamp, now.id, call.args, call.count, &now.need, &now.room);
    }
    (has_wrong_size(call.args, call.kinds, call.count) ? slot.sizes : slot.misfit).add(1);
}

// ---- calls whose thread has no slot

// Makes a call with a slot, once nobody holds it, and answers whether it is over. The state that was found is told.
inline bool call_with(Slot &slot, std::uint64_t free_state, Call &call, std::uint64_t &found) {
    Patience patience;
    for (;;) {
        found = enter(slot, free_state, free_state + kBusy);
        if (found == free_state) {
            const Leaving leaving(slot, free_state);
            return put(slot, call);
        }
        if (found != free_state + kHeld) return false;
        patience.wait();
    }
}

// Makes a call with the slot that this thread has. It answers whether the call is over: it isn't where there is no such
// slot, where that is of a session that has ended, or where the statement isn't known yet.
inline bool call_alone(Call &call) {
    if (mine.slot == nullptr) return false;
    std::uint64_t found = 0;
    if (call_with(*mine.slot, mine.free_state, call, found)) return true;
    if (found == mine.free_state) return false;
    if (found == mine.free_state + kBusy) {
        // Only this thread's own calls make it busy.
        hub.unplaced.fetch_add(1);
        return true;
    }
    mine.slot = nullptr;
    return false;
}

// Sees to it that the statement is known, and that this thread has a slot, or makes the call with the one that is
// shared. It answers whether the call is over.
inline bool call_shared(Call &call) {
    Slot *shared = nullptr;
    std::uint64_t free_state = 0;
    {
        const Lock lock(hub.mutex);
        if (hub.session == nullptr) {
            count_sessionless();
            return true;
        }
        const bool is_found = find_entry(call.site);
        if (is_found && (mine.slot != nullptr || take_slot())) return false;
        if (hub.shared == nullptr) hub.shared = open_slot();
        shared = hub.shared;
        free_state = hub.free_state;
        if (!is_found || shared == nullptr) {
            hub.unplaced.fetch_add(1);
            return true;
        }
    }
    const Lock lock(hub.shared_mutex);
    std::uint64_t found = 0;
    return call_with(*shared, free_state, call, found);
}

// A thread is looking for a slot. It leaves errno as it was.
class Inside {
   public:
    Inside() { mine.is_inside = true; }
    ~Inside() {
        mine.is_inside = false;
        errno = error_;
    }
    Inside(const Inside &) = delete;
    Inside &operator=(const Inside &) = delete;

   private:
    const int error_ = errno;
};

// A call that comes upon another of its own thread, as that of a signal handler may, isn't made.
inline void call_slowly(Call &call) {
    if (mine.is_inside) {
        hub.unplaced.fetch_add(1);
        return;
    }
    const Inside inside;
    // It takes the loader's lock, which a thread has that loads a library whose static objects log: so not below.
    if (!mine.has_left) leaver.stay();
    while (!call_alone(call) && !call_shared(call)) {
    }
}

}  // namespace detail
}  // namespace version_1
}  // namespace nanolog
