// What a session has, and what it reports. It is part of nanolog.hpp.
#pragma once

#include <atomic>
#include <cstdint>
#include <cstdio>
#include <new>

#include "nanolog_consumer.hpp"
#include "nanolog_directory.hpp"
#include "nanolog_hub.hpp"
#include "nanolog_report.hpp"
#include "nanolog_waiting.hpp"

namespace nanolog {
inline namespace version_1 {
namespace detail {

// A session that couldn't begin stays as it was made, until it is over.
enum class Stage : unsigned char { Made, Open, Ending, Over };

// What a session has. It is never freed: threads that come late, signal handlers and the end of the program may still
// look at it.
struct Core {
    Core(const char *log_name, const Options &options)
        : is_quiet(options.quiet),
          echo(options.echo),
          flush_at(options.flush_at),
          ring(options.ring),
          limit(options.time_limit * kMillisecond),
          writers(options.writers <= NANOLOG_MAX_WRITERS ? options.writers : 0),
          writer(new (std::nothrow) void *[writers]()) {
        std::snprintf(name, sizeof name, "%s", log_name);
        has_room = writer != nullptr && report.writer.reserve(writers);
    }
    ~Core() { delete[] writer; }
    Core(const Core &) = delete;
    Core &operator=(const Core &) = delete;

    char name[256];
    const bool is_quiet;
    const Severity echo, flush_at;
    const std::uint64_t ring;
    const std::uint64_t limit;  // nanoseconds that a flush or the end may take
    const std::uint32_t writers;
    bool has_room;  // there was memory for what it keeps of each of these

    Consumer consumer;
    std::atomic<Stage> stage{Stage::Made};
    Bell over;  // is rung when it is

    // These go by the hub's mutex.
    bool has_begun = false;
    std::uint64_t free_state = 0;
    Directory *directory = nullptr;
    Report report;  // the last one, once it is over

    // What the consumer was left alone with.
    void *session = nullptr;
    void **const writer;

    std::atomic<bool> is_told{false};
    Core *next = nullptr;
};

// All that the program has made.
inline std::atomic<Core *> cores [[gnu::visibility("default")]]{nullptr};

// Answers null where there is no memory.
inline Core *make_core(const char *log_name, const Options &options) {
    Core *const core = new (std::nothrow) Core(log_name, options);
    if (core == nullptr || !core->has_room) {
        delete core;
        if (!options.quiet) say("nanolog: %s: there is no memory for a session", log_name);
        return nullptr;
    }
    core->next = cores.load();
    while (!cores.compare_exchange_weak(core->next, core)) {
    }
    return core;
}

// ---- reports

inline Report::Writer writer_of(const Slot &slot) {
    return {slot.logged.get(), slot.dropped.get(), slot.need.get(), slot.room.get()};
}

// Counts what became of the calls of a session that isn't over, in a report that is empty. It takes no memory. The
// mutex is had.
inline void count(const Core &core, Report &report) {
    report.sessionless = count_all_sessionless(false);
    if (core.stage.load() == Stage::Made) return;
    report.writers = hub.opened;
    report.writer.resize(hub.opened);
    for (std::uint32_t number = 0; number < hub.opened; number++) {
        const Slot &slot = hub.slot[number];
        const Report::Writer writer = writer_of(slot);
        report.writer.set(number, writer);
        report.logged += writer.logged;
        report.dropped += writer.dropped;
        report.stale += slot.stale.get();
        report.unknown += slot.unknown.get();
        report.sizes += slot.sizes.get();
        report.misfit += slot.misfit.get();
        report.cut += slot.cut.get();
        report.early += slot.early.get();
    }
    if (core.directory != nullptr) core.directory->copy_units(report);
    if (hub.shared != nullptr) report.shared = hub.shared->logged.get();
    report.unplaced = hub.unplaced.load();
    report.written = core.consumer.written();
    report.unwritten = core.consumer.unwritten();
    report.error = core.consumer.error();
}

// Counts what became of the calls of a session, and answers true, where it isn't over; from then on its last report
// stays as it is. A signal handler that has interrupted its thread where that has the mutex does without it.
inline bool count_open(const Core &core, Report &report) {
    const auto look = [&] {
        if (core.stage.load() == Stage::Over) return false;
        count(core, report);
        return true;
    };
    if (locks != 0) return look();
    const Lock lock(hub.mutex);
    return look();
}

inline Report report_of(const Core &core) {
    Report report;
    report.writer.reserve(core.writers);
    if (!count_open(core, report)) report = core.report;
    return report;
}

// Tells, once, all losses that weren't told at once. It takes no memory, so that a report of a session which another
// thread is still about to end has no room for its writers.
inline void tell(Core &core) {
    if (core.is_told.exchange(true) || core.is_quiet) return;
    Report open;
    const bool is_open = count_open(core, open);
    const Report &report = is_open ? open : core.report;
    for (std::uint32_t number = 0; number < report.writers; number++) {
        tell_dropped(core.name, number, is_open ? writer_of(hub.slot[number]) : report.writer[number]);
    }
    tell_losses(core.name, report);
}

}  // namespace detail
}  // namespace version_1
}  // namespace nanolog
