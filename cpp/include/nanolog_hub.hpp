// What the program and its libraries share, and how a call goes into its ring. It is part of nanolog.hpp.
#pragma once

#include <pthread.h>

#include <atomic>
#include <cstddef>
#include <cstdint>
#include <cstdio>
#include <ctime>

#include "nanolog.h"
#include "nanolog_basics.hpp"
#include "nanolog_registry.hpp"
#include "nanolog_texts.hpp"

namespace nanolog {
inline namespace version_1 {
namespace detail {

class Consumer;
class Directory;
struct Core;

// ---- slots

// The state of a slot is closed, or free, which is four times the number of its session, or free and one of the others.
constexpr std::uint64_t kClosed = 0;
constexpr std::uint64_t kBusy = 1;  // a call is being made with it
constexpr std::uint64_t kHeld = 2;  // calls are held up: by a flush, or since the session changes
constexpr std::uint64_t kStates = 4;

// A writer. Who moves its state away from free has the writer and the stamp until he moves it back.
struct alignas(kLine) Slot {
    std::atomic<std::uint64_t> state{kClosed};
    void *writer = nullptr;
    void *other = nullptr;  // that of a session that takes the place of this one
    std::uint64_t last_stamp = 0;
    Count logged, dropped, need, room, misfit, sizes, cut, early, unknown, stale;
};

// Moves a slot from free to another state, if it is free, and answers the state that it had.
inline std::uint64_t enter(Slot &slot, std::uint64_t free_state, std::uint64_t wanted) {
    std::uint64_t found = free_state;
    slot.state.compare_exchange_strong(found, wanted, std::memory_order_acq_rel, std::memory_order_acquire);
    return found;
}

inline void leave(Slot &slot, std::uint64_t state) { slot.state.store(state, std::memory_order_release); }

// Leaves a slot behind a call, also where the program's clock has thrown.
class Leaving {
   public:
    Leaving(Slot &slot, std::uint64_t state) : slot_(slot), state_(state) {}
    ~Leaving() { leave(slot_, state_); }
    Leaving(const Leaving &) = delete;
    Leaving &operator=(const Leaving &) = delete;

   private:
    Slot &slot_;
    const std::uint64_t state_;
};

// The slot that this thread has, and the state in which it may log with it.
struct Mine {
    Slot *slot = nullptr;
    std::uint64_t free_state = 0;
    unsigned counter = 0;    // where it counts calls without a session, from 1
    unsigned printing = 0;   // its number where it prints lines, from 1
    bool has_left = false;   // the thread is ending, and takes no slot any more
    bool is_inside = false;  // it is looking for a slot, or logs with the one that is shared
    bool is_ending = false;  // it ends a session
    std::uint32_t doze = 0;  // the consumer's, in which it has logged so many words
    std::uint64_t words = 0;
};
inline thread_local Mine mine [[gnu::visibility("default")]];

// ---- calls

// What a session has for a place of the registry.
struct Entry {
    std::atomic<std::uint32_t> id;  // of its message, or one of those below
    const std::uint16_t *limits;    // of its arguments, where it has texts: kOpen, or the most bytes that are printed
};
constexpr std::uint32_t kMessages = 65536;   // ids are below it
constexpr std::uint32_t kUnresolved = ~0u;   // nobody has looked yet
constexpr std::uint32_t kUnknown = ~0u - 1;  // the dictionary has no such message
constexpr std::uint32_t kStale = ~0u - 2;    // the dictionary has another message with this id

// A call as its statement makes it. How far its texts may be read stands in the word of each; so it can be tried anew.
struct Call {
    Site &site;
    nanolog_arg *args;
    const Kind *kinds;
    std::size_t count;
    // Finds the ends of its texts, and answers how many end at a NUL inside them; null where it has none.
    std::uint64_t (*measure)(nanolog_arg *, const std::uint16_t *limits);
    std::uint64_t cut;  // how many of its texts were
};

// What came of a call when the archive was asked to take it.
struct Try {
    std::uint64_t stamp;
    std::uint32_t id;
    std::int32_t answer;
    std::uint64_t need, room;
};

// The functions of the session's module, and of the archive that is linked with it. Others need neither.
struct Functions {
    std::int32_t (*take)(void **, std::uint64_t, std::uint32_t, const nanolog_arg *, std::size_t, std::uint64_t *,
                         std::uint64_t *);
    // Goes on with a call that the archive didn't take, and with one whose statement has no id: then it answers whether
    // the call is over.
    void (*go_on)(Slot &, Call &, const Try &);
    bool (*go_without)(Slot &, const Call &, std::uint32_t entry);
    // Makes a call where its thread has no slot of the session that is open, or can't use it now.
    void (*call_slowly)(Call &);
    // Makes a call, and what there is to do beside it.
    void (*make_attended)(Call &, std::uint32_t attention);
    // Ends what is open at the end of the program.
    void (*end_all)();
};

// ---- what is shared

struct alignas(kLine) Padded {
    std::atomic<std::uint64_t> number{0};
};

// What a session was opened with.
struct Setup {
    std::uint64_t ring = 0;  // words of each
    std::uint32_t writers = 0;
    std::uint32_t batch = 0;
    std::uint64_t tick = 0, nanos = 0, rate = 0;
};

// The session that is open, and its writers. These stay where they are when it ends, so that a thread which comes too
// late finds its slot closed.
struct Hub {
    // The number of the session's level, or 0 where there is no session, and kNothing where it leaves out all calls.
    alignas(kLine) std::atomic<int> level{0};
    static constexpr int kNothing = -1;

    // All calls read these, which don't change while a slot is open.
    alignas(kLine) const Entry *entries = nullptr;
    std::uint32_t places = 0;  // so many have an entry
    bool drops = false;
    std::uint64_t (*clock)() = nullptr;
    Consumer *consumer = nullptr;
    Functions functions = {};
    // What there is to do beside calls. Up to this severity they are echoed, or flushed; and kDoze times the number of
    // the doze in which the consumer is, who is woken before a ring gets full.
    std::atomic<std::uint32_t> attention{0};
    static constexpr std::uint32_t kDoze = 8;

    // Guards what stands here, up to `unplaced`.
    alignas(kLine) pthread_mutex_t mutex = PTHREAD_MUTEX_INITIALIZER;
    bool is_taken = false;         // by a session, from before it is open until it has ended
    void *session = nullptr;       // null where none is open
    std::uint64_t free_state = 0;  // the state of its free slots
    Setup setup;
    Directory *directory = nullptr;
    std::atomic<Core *> core{nullptr};  // of the session that is open, or ending
    std::uint32_t opened = 0;           // so many slots have a writer
    Slot *shared = nullptr;             // null until a thread wants it
    Slot *spare[NANOLOG_MAX_WRITERS] = {};
    std::uint32_t spares = 0;  // so many slots were given back
    unsigned holders = 0;      // so many flushes hold calls up
    std::atomic<std::uint64_t> unplaced{0};
    std::atomic<bool> has_begun{false};  // a session was made: from now on no statement prints its line
    std::atomic<bool> is_quiet{false};
    std::atomic<unsigned> loneliness{0};  // 2 in a plugin whose program doesn't share its own, 1 elsewhere

    // Is had for the time of a call with the shared slot.
    pthread_mutex_t shared_mutex = PTHREAD_MUTEX_INITIALIZER;

    // Calls that were made without a session, and of which no session has told. Threads take them by turns.
    static constexpr unsigned kCounters = 32;
    std::atomic<unsigned> counting_threads{0}, printing_threads{0};
    Padded sessionless[kCounters];

    Slot slot[NANOLOG_MAX_WRITERS];
};
inline Hub hub [[gnu::visibility("default")]];
static_assert(sizeof(Slot) == kLine, "a writer has one line");
static_assert(offsetof(Hub, level) == 0 && offsetof(Hub, entries) == kLine, "nothing shares the level's line");

inline void count_sessionless() {
    if (mine.counter == 0) mine.counter = hub.counting_threads.fetch_add(1) % Hub::kCounters + 1;
    hub.sessionless[mine.counter - 1].number.fetch_add(1, std::memory_order_relaxed);
}

// How many calls were made without a session. With `resets` they are told by who asks.
inline std::uint64_t count_all_sessionless(bool resets) {
    std::uint64_t sum = 0;
    for (Padded &counter : hub.sessionless) sum += resets ? counter.number.exchange(0) : counter.number.load();
    return sum;
}

// At the end of the program, when static objects are destroyed, ends the session that is open wherever it is, as in a
// function that hasn't returned, and tells what no session has told.
struct Ender {
    constexpr Ender() = default;
    ~Ender() {
        if (hub.functions.end_all != nullptr) hub.functions.end_all();
        const std::uint64_t calls = count_all_sessionless(true);
        if (calls != 0 && !hub.is_quiet.load()) {
            const char *const why = hub.loneliness.load() == 2 ? " (the program isn't linked with -rdynamic)" : "";
            say("nanolog: calls without a session%s: %llu", why, static_cast<unsigned long long>(calls));
        }
    }
};
inline Ender ender [[gnu::visibility("default")]];

// ---- how a call is made

// What the session has for this statement, or null where it has nothing yet. The slot is had.
inline const Entry *entry_of(const Site &site) {
    const std::uint32_t place = site.place.load(std::memory_order_acquire);
    return place < hub.places ? &hub.entries[place] : nullptr;
}

// Logs with a slot that this thread has made busy, and answers whether the call is over: it isn't where its message has
// to be looked for.
inline bool put(Slot &slot, Call &call) {
    const Entry *const entry = entry_of(call.site);
    const std::uint32_t id = entry != nullptr ? entry->id.load(std::memory_order_acquire) : kUnresolved;
    if (id >= kMessages) return hub.functions.go_without(slot, call, id);
    if (call.measure != nullptr) call.cut = call.measure(call.args, entry->limits);
    std::uint64_t stamp = hub.clock != nullptr ? hub.clock() : nanos_of(CLOCK_MONOTONIC);
    if (stamp < slot.last_stamp) {
        stamp = slot.last_stamp;
        slot.early.add(1);
    }
    slot.last_stamp = stamp;
    std::uint64_t need = 0, room = 0;
    const std::int32_t answer = hub.functions.take(&slot.writer, stamp, id, call.args, call.count, &need, &room);
    if (answer == NANOLOG_OK) {
        slot.logged.add(1);
        if (call.cut != 0) slot.cut.add(call.cut);
    } else {
        hub.functions.go_on(slot, call, Try{stamp, id, answer, need, room});
    }
    return true;
}

}  // namespace detail
}  // namespace version_1
}  // namespace nanolog
