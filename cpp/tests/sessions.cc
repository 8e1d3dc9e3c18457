// What becomes of calls and sessions, one case a run.
// usage: sessions CASE
#include <sys/resource.h>
#include <unistd.h>

#include <csignal>
#include <cstring>
#include <memory>
#include <nanolog.hpp>
#include <string>
#include <string_view>
#include <thread>
#include <vector>

#include "check.hpp"

namespace {

constexpr const char *kLog = "sessions.log";
constexpr const char *kDictionary = DICTIONARY;

// So many calls of several threads make no log that is too large to be read.
constexpr int kMany = 500000;

int evaluated = 0;
int evaluate() { return ++evaluated; }

// Copies a file as it is now.
void copy(const char *from, const char *to) {
    std::FILE *const in = std::fopen(from, "r"), *const out = std::fopen(to, "w");
    CHECK(in != nullptr && out != nullptr);
    char bytes[65536];
    while (const std::size_t len = std::fread(bytes, 1, sizeof bytes, in))
        CHECK(std::fwrite(bytes, 1, len, out) == len);
    std::fclose(in);
    CHECK(std::fclose(out) == 0);
}

// ---- levels, and calls without a session

// No argument of a call that the level leaves out is evaluated.
void level() {
    nanolog::Options options;
    options.level = nanolog::Severity::Warning;
    nanolog::Session log(kLog, kDictionary, options);
    NANO_LOG(ERROR, "error %d", evaluate());
    NANO_LOG(WARNING, "warning %d", evaluate());
    NANO_LOG(NOTICE, "notice %d", evaluate());
    NANO_LOG(DEBUG, "debug %d", evaluate());
    CHECK(evaluated == 2);
    CHECK(log.close().logged == 2);
}

// The level changes while a session is open, and not behind it.
void set_level() {
    nanolog::Session log(kLog, kDictionary);
    std::atomic<bool> is_over{false};
    std::thread other([&] {
        for (int number = 0; !is_over && number < 20000; number++) NANO_LOG(ERROR, "error of another thread");
    });
    for (int turn = 0; turn < 100; turn++) {
        log.set_level(nanolog::Severity::Warning);
        NANO_LOG(NOTICE, "left out %d", evaluate());
        log.set_level(nanolog::Severity::Notice);
        NANO_LOG(NOTICE, "kept %d", evaluate());
        NANO_LOG(DEBUG, "left out %d", evaluate());
    }
    is_over = true;
    other.join();
    CHECK(evaluated == 100);
    CHECK(log.close().is_clean());
    log.set_level(nanolog::Severity::Debug);
    NANO_LOG(ERROR, "behind %d", evaluate());
    CHECK(evaluated == 100);
}

// Calls between two sessions and behind them are counted, and their arguments aren't evaluated. Before the first one
// statements print their lines, where they have them.
void without() {
    NANO_LOG(NOTICE, "before %d", evaluate());
    const int printed = kIsInjected ? 0 : 1;
    CHECK(evaluated == printed);
    {
        nanolog::Session log(kLog, kDictionary);
        CHECK(log.report().sessionless == (kIsInjected ? 1 : 0));
        NANO_LOG(NOTICE, "within the first %d", evaluate());
    }
    NANO_LOG(NOTICE, "between %d", evaluate());
    NANO_LOG(NOTICE, "between %d", evaluate());
    {
        nanolog::Session log("sessions2.log", kDictionary);
        NANO_LOG(NOTICE, "within the second %d", evaluate());
        const nanolog::Report report = log.close();
        CHECK(report.logged == 1 && report.sessionless == 2 && !report.is_clean());
        NANO_LOG(NOTICE, "behind %d", evaluate());
        CHECK(log.close().sessionless == 2 && log.report().logged == 1);
    }
    NANO_LOG(NOTICE, "behind %d", evaluate());
    CHECK(evaluated == printed + 2);
}

// Calls of many threads without a session are all counted.
void many_without() {
    { nanolog::Session log(kLog, kDictionary); }
    std::vector<std::thread> threads;
    for (int thread = 0; thread < 100; thread++) {
        threads.emplace_back([] {
            for (int number = 0; number < 1000; number++) NANO_LOG(NOTICE, "without a session %d", number);
        });
    }
    for (std::thread &thread : threads) thread.join();
    nanolog::Session log("sessions2.log", kDictionary);
    CHECK(log.close().sessionless == 100000);
}

// A session that can't be: calls are without one.
void unopened(const char *log_name, const char *dictionary, const nanolog::Options &options) {
    nanolog::Session log(log_name, dictionary, options);
    CHECK(!log && !log.flush());
    NANO_LOG(NOTICE, "unopened %d", evaluate());
    CHECK(evaluated == 0 && log.report().sessionless == 1 && log.report().logged == 0);
}

void no_dictionary() { unopened(kLog, "no/such.dict", {}); }
void a_folder() { unopened(kLog, "/", {}); }
void bad_dictionary() { unopened(kLog, "bad.dict", {}); }
void torn_dictionary() { unopened(kLog, "torn.dict", {}); }

// The dictionary of other sources: a statement that was taken out with another one is refused, and any other isn't.
void other_dictionary() {
    nanolog::Session log(kLog, "other.dict");
    CHECK(log);
    NANO_LOG(NOTICE, "of another dictionary %d", 1);
    NANO_LOG(NOTICE, "of another dictionary %d", 2);
    const nanolog::Report report = log.close();
    CHECK(report.stale == (kIsInjected ? 2 : 0) && report.logged == (kIsInjected ? 0 : 2));
    CHECK(report.units == (kIsInjected ? 1 : 0) && report.is_clean() == !kIsInjected);
    if (kIsInjected) CHECK(std::strcmp(report.unit[0].file, __FILE__) == 0 && report.unit[0].calls == 2);
}

void no_ring() {
    nanolog::Options options;
    options.ring = 1023;
    unopened(kLog, kDictionary, options);
}
void no_writers() {
    nanolog::Options options;
    options.writers = 0;
    unopened(kLog, kDictionary, options);
}
void more_writers() {
    nanolog::Options options;
    options.ring = 1024;
    options.writers = 1025;
    unopened(kLog, kDictionary, options);
}
void more_words() {
    nanolog::Options options;
    options.ring = 1048576;
    options.writers = 65;
    unopened(kLog, kDictionary, options);
}
void no_batch() {
    nanolog::Options options;
    options.batch = 65537;
    unopened(kLog, kDictionary, options);
}
void no_memory() {
    const rlimit limit = {1 << 28, 1 << 28};
    CHECK(setrlimit(RLIMIT_AS, &limit) == 0);
    nanolog::Options options;
    options.ring = 1 << 20;
    unopened(kLog, kDictionary, options);
}
void quiet() {
    nanolog::Options options;
    options.quiet = true;
    unopened(kLog, "no/such.dict", options);
    NANO_LOG(NOTICE, "quiet %d", 1);
}

// A second session while there is one does nothing.
void second() {
    nanolog::Session log(kLog, kDictionary);
    {
        nanolog::Session other("sessions2.log", kDictionary);
        CHECK(!other && log);
        NANO_LOG(NOTICE, "second %d", 1);
        CHECK(other.report().logged == 0);
    }
    NANO_LOG(NOTICE, "second %d", 2);
    CHECK(log.report().logged == 2 && log.close().is_clean());
}

// ---- losses

// What is said of all losses at once.
void losses() {
    nanolog::Options options;
    options.writers = 2;
    options.ring = 1024;
    options.policy = nanolog::Policy::Drop;
    static std::uint64_t time = 1000;
    options.keep_times = false;
    options.clock = [] { return time; };
    nanolog::Session log("/dev/full", kDictionary, options);
    const std::string long_text(4001, 'x'), half(2500, 'y');
    NANO_LOG(NOTICE, "cut %s", long_text);
    CHECK(log.flush() == false);
    NANO_LOG(NOTICE, "cut %s, %.*s", std::string_view("a\0b", 3), 4095, long_text.c_str());
    CHECK(log.flush() == false);
    NANO_LOG(NOTICE, "two are cut: %s %s", half, half);
    CHECK(log.flush() == false);
    NANO_LOG(NOTICE, "too wide: %*d", 4096, 5);
    NANO_LOG(NOTICE, "too wide: %*d", -4096, 5);
    NANO_LOG(NOTICE, "too wide: %.*d", 4096, 5);
    NANO_LOG(NOTICE, "too wide: %*s", 4096, long_text);
    time = 999;
    NANO_LOG(NOTICE, "early");
    const nanolog::Report report = log.close();
    CHECK(report.logged == 4 && report.cut == 4 && report.misfit == 0 && report.sizes == 4 && report.early == 1);
    CHECK(report.dropped == 0 && report.unplaced == 0 && report.sessionless == 0 && report.written == 0);
    CHECK(report.error == ENOSPC && report.unwritten > 8000);
}

void signalled(int) { NANO_LOG(NOTICE, "of a handler %d", 1); }

// A signal handler's call that comes upon one of its own thread is refused, and nothing stands still.
void interrupted() {
    nanolog::Options options;
    static bool is_raised = false;
    options.keep_times = false;
    options.clock = [] {
        if (is_raised) std::raise(SIGUSR1);
        is_raised = false;
        return std::uint64_t{5};
    };
    std::signal(SIGUSR1, signalled);
    nanolog::Session log(kLog, kDictionary, options);
    NANO_LOG(NOTICE, "interrupted %d", 1);
    is_raised = true;
    NANO_LOG(NOTICE, "interrupted %d", 2);
    const nanolog::Report report = log.close();
    CHECK(report.logged == 2 && report.unplaced == 1);
}

// ---- lives of threads and of sessions

void call_some(const char *what, int calls) {
    for (int number = 0; number < calls; number++) NANO_LOG(NOTICE, "%s %d", what, number);
}

// A thread that has a writer of one session logs in the next, too.
void successive() {
    auto first = std::make_unique<nanolog::Session>(kLog, kDictionary);
    std::atomic<int> step{0};
    std::thread thread([&] {
        call_some("first", 1000);
        step = 1;
        while (step != 2) std::this_thread::yield();
        call_some("second", 2000);
    });
    while (step != 1) std::this_thread::yield();
    CHECK(first->close().logged == 1000);
    first.reset();
    nanolog::Session next("sessions2.log", kDictionary);
    step = 2;
    thread.join();
    CHECK(next.close().logged == 2000);
}

// A thread that has a writer of one session ends in the next one, and leaves the writers of that alone.
void late_end() {
    auto first = std::make_unique<nanolog::Session>(kLog, kDictionary);
    std::atomic<int> step{0};
    std::thread thread([&] {
        call_some("first", 10);
        step = 1;
        while (step != 2) std::this_thread::yield();
    });
    while (step != 1) std::this_thread::yield();
    first.reset();
    nanolog::Session next("sessions2.log", kDictionary);
    call_some("next", 10);
    step = 2;
    thread.join();
    std::thread([] { call_some("next", 10); }).join();
    const nanolog::Report report = next.close();
    CHECK(report.logged == 20 && report.writers == 2 && report.is_clean());
}

// Sessions begin and end while threads log. Each call is in one of them, or was made without one.
void abandoned() {
    constexpr int kThreads = 4, kSessions = 40;
    // From the first session on no call prints its line.
    { nanolog::Session log(kLog, kDictionary); }
    std::atomic<bool> is_over{false};
    std::atomic<std::uint64_t> calls{0};
    std::vector<std::thread> threads;
    for (int thread = 0; thread < kThreads; thread++) {
        threads.emplace_back([&] {
            std::uint64_t number = 0;
            for (; !is_over; number++) NANO_LOG(NOTICE, "abandoned %llu", number);
            calls += number;
        });
    }
    std::uint64_t logged = 0, sessionless = 0;
    nanolog::Options options;
    options.ring = 1024;
    options.writers = 3;
    options.quiet = true;
    for (int session = 0; session < kSessions; session++) {
        options.policy = session % 2 == 0 ? nanolog::Policy::Wait : nanolog::Policy::Drop;
        nanolog::Session log(kLog, kDictionary, options);
        CHECK(log);
        usleep(2000);
        const nanolog::Report report = log.close();
        logged += report.logged + report.dropped;
        sessionless += report.sessionless;
        CHECK(report.writers <= 3 &&
              report.unknown + report.stale + report.misfit + report.unplaced + report.unwritten == 0);
    }
    is_over = true;
    for (std::thread &thread : threads) thread.join();
    nanolog::Session last("sessions2.log", kDictionary, options);
    sessionless += last.close().sessionless;
    CHECK(logged > 0 && logged + sessionless == calls);
}

struct Speaker {
    const char *name;
    ~Speaker() { NANO_LOG(NOTICE, "%s says goodbye", name); }
};

// The destructors of thread_locals log, those that come before the writer is given back and those behind it.
void thread_locals() {
    nanolog::Session log(kLog, kDictionary);
    for (int thread = 0; thread < 100; thread++) {
        std::thread([&] {
            thread_local Speaker early{"early"};
            CHECK(early.name != nullptr);
            NANO_LOG(NOTICE, "thread %d", thread);
            thread_local Speaker late{"late"};
            CHECK(late.name != nullptr);
        }).join();
    }
    const nanolog::Report report = log.close();
    CHECK(report.logged == 300 && report.writers == 2 && report.shared == 100 && report.is_clean());
}

// A session that lives until the program's static objects are destroyed: those made before it come too late.
void statics() {
    static Speaker outside{"outside"};
    static nanolog::Session log(kLog, kDictionary);
    static Speaker inside{"inside"};
    NANO_LOG(NOTICE, "main %d", 1);
}

// A program that ends while its threads log.
void exiting() {
    static nanolog::Session log(kLog, kDictionary);
    for (int thread = 0; thread < 4; thread++) {
        std::thread([] {
            for (int number = 0; number < kMany; number++) NANO_LOG(NOTICE, "exiting %d", number);
            for (;;) pause();
        }).detach();
    }
    usleep(20000);
    std::exit(0);
}

// One writer, which all threads share.
void one_writer() {
    nanolog::Options options;
    options.writers = 1;
    options.ring = 1024;
    nanolog::Session log(kLog, kDictionary, options);
    std::vector<std::thread> threads;
    for (int thread = 0; thread < 8; thread++) threads.emplace_back([] { call_some("one writer", 5000); });
    for (std::thread &thread : threads) thread.join();
    const nanolog::Report report = log.close();
    CHECK(report.logged == 40000 && report.shared == 40000 && report.writers == 1 && report.is_clean());
}

// A report has an entry for each writer that was taken, and is copied and moved as any value is.
void reports() {
    nanolog::Options options;
    options.writers = 1024;
    options.ring = 1024;
    nanolog::Session log(kLog, kDictionary, options);
    CHECK(log.report().writer.size() == 0 && log.report().writer[0].logged == 0);
    std::vector<std::thread> threads;
    std::atomic<int> begun{0};
    for (int thread = 0; thread < 3; thread++) {
        threads.emplace_back([&, thread] {
            call_some("report", thread + 1);
            for (begun++; begun != 3;) std::this_thread::yield();
        });
    }
    for (std::thread &thread : threads) thread.join();
    nanolog::Report report = log.report(), copy = report;
    const nanolog::Report empty, moved = std::move(report);
    report = copy;
    copy = empty;
    CHECK(copy.writers == 0 && copy.writer.size() == 0 && copy.writer[2].logged == 0);
    call_some("report", 4);
    for (const nanolog::Report &one : {moved, report, log.close(), log.report()}) {
        std::uint64_t logged = 0;
        for (const nanolog::Report::Writer &writer : one.writer) logged += writer.logged;
        CHECK(one.writers == 3 && one.writer.size() == 3 && logged == one.logged && one.writer[3].logged == 0);
        CHECK(one.writer[0].logged + one.writer[1].logged + one.writer[2].logged == logged);
    }
    CHECK(moved.logged == 6 && report.logged == 6 && log.report().logged == 10);
}

// ---- flushes

// What was logged before a flush is in the file, by whichever thread.
void flush() {
    nanolog::Session log(kLog, kDictionary);
    for (int turn = 0; turn < 20; turn++) {
        std::thread([] { call_some("flush of another thread", 50); }).join();
        call_some("flush", 50);
        CHECK(log.flush());
    }
    copy(kLog, "flushed.log");
    CHECK(log.close().logged == 2000);
}

// Each call that is flushed is written by then, whatever other flushes there are.
void many_flushes() {
    nanolog::Session log(kLog, kDictionary);
    std::atomic<bool> is_over{false};
    std::thread other([&] {
        while (!is_over) CHECK(log.flush());
    });
    std::uint64_t written = log.report().written;
    for (int number = 0; number < 20000; number++) {
        NANO_LOG(NOTICE, "flushed %d", number);
        CHECK(log.flush());
        const std::uint64_t now = log.report().written;
        CHECK(now > written);
        written = now;
    }
    is_over = true;
    other.join();
}

// A flush ends though other threads never let the rings get empty, and so do several at once.
void busy_flush() {
    nanolog::Options options;
    options.ring = 1024;
    nanolog::Session log(kLog, kDictionary, options);
    std::atomic<bool> is_over{false};
    std::vector<std::thread> threads;
    for (int thread = 0; thread < 4; thread++) {
        threads.emplace_back([&] {
            for (int number = 0; !is_over && number < kMany; number++) NANO_LOG(DEBUG, "busy %d", number);
        });
    }
    std::thread other([&] {
        for (int turn = 0; turn < 5; turn++) CHECK(log.flush());
    });
    for (int turn = 0; turn < 5; turn++) {
        call_some("flush", 100);
        CHECK(log.flush());
    }
    copy(kLog, "flushed.log");
    other.join();
    is_over = true;
    for (std::thread &thread : threads) thread.join();
    const nanolog::Report report = log.close();
    CHECK(report.is_clean());
    std::printf("%llu\n", static_cast<unsigned long long>(report.logged));
}

}  // namespace

int main(int count, char **words) {
    CHECK(count == 2);
    const struct {
        const char *name;
        void (*run)();
    } cases[] = {
        {"level", level},
        {"set_level", set_level},
        {"without", without},
        {"many_without", many_without},
        {"no_dictionary", no_dictionary},
        {"a_folder", a_folder},
        {"bad_dictionary", bad_dictionary},
        {"torn_dictionary", torn_dictionary},
        {"other_dictionary", other_dictionary},
        {"no_ring", no_ring},
        {"no_writers", no_writers},
        {"more_writers", more_writers},
        {"more_words", more_words},
        {"no_batch", no_batch},
        {"no_memory", no_memory},
        {"quiet", quiet},
        {"second", second},
        {"losses", losses},
        {"interrupted", interrupted},
        {"successive", successive},
        {"late_end", late_end},
        {"abandoned", abandoned},
        {"thread_locals", thread_locals},
        {"statics", statics},
        {"exiting", exiting},
        {"one_writer", one_writer},
        {"reports", reports},
        {"flush", flush},
        {"many_flushes", many_flushes},
        {"busy_flush", busy_flush},
    };
    for (const auto &one : cases) {
        if (std::strcmp(words[1], one.name) == 0) {
            one.run();
            return 0;
        }
    }
    CHECK(!"a case has this name");
    return 0;
}
