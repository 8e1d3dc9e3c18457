// Sessions. It is part of nanolog.hpp.
#pragma once

#include <atomic>
#include <cerrno>
#include <cstddef>
#include <cstdint>
#include <cstdio>
#include <cstring>
#include <new>
#include <utility>

#include "nanolog_attention.hpp"
#include "nanolog_ends.hpp"
#include "nanolog_report.hpp"
#include "nanolog_writers.hpp"

namespace nanolog {
inline namespace version_1 {

// Logs all calls of the program's threads into a file. There is one at a time.
class Session {
   public:
    using Options = nanolog::Options;
    using Report = nanolog::Report;

    // Makes the file; one that is there, and holds something, is kept under another name. What fails is said on standard
    // error. The dictionary is that of the statements that were taken out of their sources, if there are any; all others
    // are known without.
    explicit Session(const char *log_name, const Options &options = Options()) : Session(log_name, nullptr, options) {}

    Session(const char *log_name, const char *dictionary, const Options &options = Options())
        : core_(detail::make_core(log_name, options)) {
        if (core_ == nullptr || !take()) return;
        const Turn turn(*core_);
        open(log_name, dictionary, options);
    }

    ~Session() {
        close();
        if (core_ != nullptr) detail::tell(*core_);
    }

    Session(const Session &) = delete;
    Session &operator=(const Session &) = delete;

    // ---- Any thread may call these at any time, several at once; a signal handler may not.

    // Whether calls are logged, and the file takes them.
    explicit operator bool() const {
        return core_ != nullptr && core_->stage.load() == detail::Stage::Open && !core_->consumer.is_failing();
    }

    // From now on less grave calls are left out.
    void set_level(Severity level) {
        const detail::Lock lock(detail::hub.mutex);
        if (core_ != nullptr && core_->stage.load() == detail::Stage::Open) detail::set_level(level);
    }

    // Returns once all that was logged before is handed to the system, or after so many milliseconds, at first those of
    // the option; and answers whether that took it. Where other threads log so much that their rings don't get empty,
    // their calls wait for it.
    bool flush() { return core_ != nullptr && detail::flush(*core_, core_->limit); }
    bool flush(std::uint32_t milliseconds) {
        return core_ != nullptr && detail::flush(*core_, milliseconds * detail::kMillisecond);
    }

    // Returns once a new part of the log has begun, or after so many milliseconds, and answers whether that took it. It
    // begins behind what was logged before, unless threads log without a pause. Where the log's name doesn't lead to its
    // file any more, since somebody has moved that, nothing else is renamed.
    bool rotate() { return core_ != nullptr && detail::rotate(*core_, core_->limit); }
    bool rotate(std::uint32_t milliseconds) {
        return core_ != nullptr && detail::rotate(*core_, milliseconds * detail::kMillisecond);
    }

    // What became of the calls so far.
    Report report() const { return core_ != nullptr ? detail::report_of(*core_) : Report(); }

    // Does what the destructor does, but for telling what was lost, and answers that; after so many milliseconds at the
    // latest. What threads log from then on is without a session.
    Report close() {
        if (core_ != nullptr) detail::end(*core_, core_->limit);
        return report();
    }
    Report close(std::uint32_t milliseconds) {
        if (core_ != nullptr) detail::end(*core_, milliseconds * detail::kMillisecond);
        return report();
    }

   private:
    // Gives the hub back if the session doesn't begin, also where the program's clock throws.
    class Turn {
       public:
        explicit Turn(detail::Core &core) : core_(core) {}
        ~Turn() {
            if (core_.has_begun) return;
            const detail::Lock lock(detail::hub.mutex);
            delete std::exchange(core_.directory, nullptr);
            detail::hub.is_taken = false;
        }
        Turn(const Turn &) = delete;
        Turn &operator=(const Turn &) = delete;

       private:
        detail::Core &core_;
    };

    // Takes the hub for this session, if no other has it. From now on no statement prints its line.
    bool take() {
        detail::Hub &hub = detail::hub;
        const detail::Lock lock(hub.mutex);
        if (std::exchange(hub.is_taken, true)) {
            core_->stage.store(detail::Stage::Over);
            return fail(core_->name, "another session is open");
        }
        hub.is_quiet.store(core_->is_quiet);
        if (!hub.has_begun.load()) {
            hub.functions = {&nanolog_log,         &detail::go_on,         &detail::go_without,
                             &detail::call_slowly, &detail::make_attended, &detail::end_all};
            hub.has_begun.store(nanolog_version_1() != 0, std::memory_order_release);
        }
        return true;
    }

    bool open(const char *log_name, const char *dictionary, const Options &options) {
        char found[detail::kMaxPath];
        core_->directory = new (std::nothrow) detail::Directory;
        if (core_->directory == nullptr) return fail(log_name, "there is no memory for the dictionary");
        detail::Directory &directory = *core_->directory;
        if (const int error = directory.dictionary.begin(detail::find_beside(dictionary, found, sizeof found))) {
            return fail(dictionary != nullptr ? dictionary : log_name, std::strerror(error));
        }
        directory.take_in();
        if (!find_file(log_name, options)) return false;
        const detail::Timing timing = {options.clock, options.real_time,
                                       options.clock != nullptr ? options.rate : detail::kSecond, options.keep_times};
        const detail::Reading reading = detail::read_first(timing);
        const detail::Setup setup = {options.ring,    options.writers,
                                     options.batch,   reading.ticks(),
                                     options.nanos != 0 ? options.nanos : reading.nanos,
                                     timing.rate};
        detail::Times times;
        times.begin(timing, {setup.tick, setup.nanos}, detail::Wide{setup.nanos} - reading.nanos);
        void *session = nullptr, *consumer = nullptr;
        std::uint64_t line = 0;
        const std::int32_t answer = detail::open_session(directory.dictionary, setup, &session, &consumer, &line);
        if (answer == NANOLOG_OK && make_entries(&session) && start(log_name, consumer, setup, times)) {
            begin(session, setup, options);
            return true;
        }
        nanolog_free(session);
        nanolog_free(consumer);
        return answer != NANOLOG_OK && tell_refusal(answer, log_name, dictionary, line);
    }

    // Says why there is no session in C, and answers false.
    bool tell_refusal(std::int32_t answer, const char *log_name, const char *dictionary, std::uint64_t line) const {
        if (answer == NANOLOG_OUT_OF_RANGE) return fail(log_name, "an option is out of its range");
        if (answer != NANOLOG_BAD_DICTIONARY) return fail(log_name, "there is no memory for the rings");
        char place[sizeof core_->name + 24];
        std::snprintf(place, sizeof place, "%s:%llu", dictionary != nullptr ? dictionary : log_name,
                      static_cast<unsigned long long>(line));
        return fail(place, "this is no line of a dictionary");
    }

    // Finds what there is for each statement.
    bool make_entries(void **session) {
        detail::Directory &directory = *core_->directory;
        return directory.make_entries(session, directory.dictionary.count()) ||
               fail(core_->name, "there is no memory for the statements");
    }

    // Finds the file, before memory is taken that is never given back.
    bool find_file(const char *log_name, const Options &options) {
        if (options.part_bytes == 0 || options.part_bytes > Options::kPartBytes) {
            return tell_refusal(NANOLOG_OUT_OF_RANGE, log_name, nullptr, 0);
        }
        return core_->consumer.find_file(log_name, core_->is_quiet, options.part_bytes, options.parts) ||
               fail(log_name, kTaken);
    }

    // Makes the file and starts the consumer. A record takes no more than nine bytes for each word.
    bool start(const char *log_name, void *consumer, const detail::Setup &setup, const detail::Times &times) {
        if (!core_->consumer.open_file()) return fail(log_name, kTaken);
        const int failed = core_->consumer.start(consumer, times, setup.writers * setup.ring * 9);
        return failed == 0 || fail(log_name, std::strerror(failed));
    }

    void begin(void *session, const detail::Setup &setup, const Options &options) {
        detail::watch_process();
        if (options.on_crash) detail::watch_crashes(core_->consumer);
        detail::Hub &hub = detail::hub;
        const detail::Lock lock(hub.mutex);
        detail::Stage made = detail::Stage::Made;
        // It doesn't begin where another thread ends the program.
        if (detail::is_last.load() || !core_->stage.compare_exchange_strong(made, detail::Stage::Open)) return;
        core_->has_begun = true;
        hub.session = session;
        hub.free_state += detail::kStates;
        hub.setup = setup;
        hub.directory = core_->directory;
        detail::show_entries();
        hub.opened = 0;
        hub.shared = nullptr;
        hub.spares = 0;
        hub.holders = 0;
        hub.unplaced.store(0);
        hub.consumer = &core_->consumer;
        hub.drops = options.policy == Policy::Drop;
        hub.clock = options.clock;
        hub.core.store(core_);
        hub.attention.store(
            static_cast<std::uint32_t>(options.echo > options.flush_at ? options.echo : options.flush_at));
        core_->free_state = hub.free_state;
        detail::set_level(options.level);
    }

    bool fail(const char *name, const char *what) const {
        if (!core_->is_quiet) detail::say("nanolog: %s: %s", name, what);
        return false;
    }

    static constexpr const char *kTaken = "another session writes this file";

    detail::Core *const core_;
};

}  // namespace version_1
}  // namespace nanolog
