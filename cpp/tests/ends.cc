// How programs end, one case a run.
// usage: ends CASE [WORD]
// Where threads log, the program prints how many calls of each had returned before the end began.
#include "ends.hpp"

#include <sys/wait.h>

#include <exception>
#include <vector>

namespace {

// ---- ends of a program

void returns() {
    nanolog::Session log(kLog, small());
    call_lines();
}

void exits() {
    nanolog::Session log(kLog, small());
    call_lines();
    std::exit(7);
}

void exits_static() {
    static nanolog::Session log(kLog, small());
    call_lines();
    std::exit(7);
}

// Another thread ends the program, while the one that has the session goes on.
void exits_elsewhere() {
    nanolog::Session log(kLog, small());
    call_lines();
    std::thread([] { std::exit(7); }).detach();
    for (;;) pause();
}

// Another thread ends the program while this one ends its session.
void exits_beside_close() {
    nanolog::Session log(kLog, small());
    call_lines();
    std::thread([] { std::exit(7); }).detach();
    log.close();
    for (;;) pause();
}

// Another thread ends the program while this one opens and ends sessions, in which others log.
void exits_beside_sessions() {
    nanolog::Options options = small();
    options.quiet = true;
    { const nanolog::Session first(kLog, options); }
    for (int thread = 0; thread < kThreads; thread++) std::thread(call_on, thread, 1000000).detach();
    std::thread([] {
        usleep(static_cast<unsigned>(std::atoi(word)));
        std::exit(7);
    }).detach();
    for (;;) {
        nanolog::Session log(kLog, options);
        usleep(200);
        log.flush(1);
    }
}

void exits_busy() {
    nanolog::Session log(kLog, small());
    begin_threads();
    print_returned();
    std::exit(7);
}

struct Speaker {
    const char *name;
    ~Speaker() { NANO_LOG(NOTICE, "%s says goodbye", name); }
};

// What the destructors of static objects log, and functions that atexit was given, with a session that nobody ends.
void exits_late() {
    static Speaker speaker{"a static object"};
    nanolog::Session log(kLog, small());
    std::atexit([] { NANO_LOG(NOTICE, "a function of atexit"); });
    call_lines();
    std::exit(7);
}

void underscore_exits() {
    nanolog::Session log(kLog, small());
    call_lines();
    CHECK(log.flush());
    NANO_LOG(NOTICE, "what becomes of this is open");
    _exit(7);
}

void quick_exits() {
    nanolog::Session log(kLog, small());
    call_lines();
    CHECK(log.flush());
    NANO_LOG(NOTICE, "what becomes of this is open");
    std::quick_exit(7);
}

void throws() {
    nanolog::Session log(kLog, small());
    call_lines();
    throw std::runtime_error("thrown");
}

void throws_caught() {
    try {
        throws();
    } catch (const std::runtime_error &) {
    }
}

// A signal that ends the program without a fault.
void signalled() {
    nanolog::Session log(kLog, small());
    call_lines();
    CHECK(log.flush());
    std::raise(std::atoi(word));
}

// ---- a handler that ends the program

// Sends this thread a signal while it logs.
void log_until_signalled() {
    static const pthread_t thread = pthread_self();
    std::signal(SIGTERM, exit_of_handler);
    std::thread([] {
        while (returned[0].load() < 20) std::this_thread::yield();
        for (std::atomic<int> turn{0}; turn < std::atoi(word); turn++) {
        }
        pthread_kill(thread, SIGTERM);
    }).detach();
    call_on(0, 500);
}

void handler() {
    nanolog::Session log(kLog, small());
    log_until_signalled();
}

void handler_static() {
    static nanolog::Session log(kLog, small());
    log_until_signalled();
}

// The thread waits for its turn with the shared writer, or has it.
void handler_shared() {
    nanolog::Options options = small();
    options.writers = 1;
    nanolog::Session log(kLog, options);
    std::thread(call_on, 1, 500).detach();
    log_until_signalled();
}

// The signal comes in the midst of a call, of a thread's own writer or of the shared one.
void handler_inside() {
    std::signal(SIGTERM, exit_of_handler);
    nanolog::Options options = small();
    options.writers = static_cast<std::uint32_t>(std::atoi(word));
    static std::atomic<bool> is_raised{false};
    options.keep_times = false;
    options.clock = [] {
        if (returned[0].load() == 20 && !is_raised.exchange(true)) std::raise(SIGTERM);
        return std::uint64_t{5};
    };
    nanolog::Session log(kLog, options);
    begin_threads(100, 1);
    call_on(0, 500);
}

// It comes upon a thread that flushes.
void handler_flush() {
    std::signal(SIGTERM, exit_of_handler);
    static const pthread_t thread = pthread_self();
    nanolog::Session log(kLog, small());
    std::thread([] {
        while (returned[0].load() < 20) std::this_thread::yield();
        pthread_kill(thread, SIGTERM);
    }).detach();
    for (int number = 0;; number++) {
        call(0, number);
        returned[0].store(number + 1);
        log.flush();
        log.report();
    }
}

// ---- crashes

// One thread faults while the others log.
void crashes() {
    nanolog::Session log(kLog, small());
    begin_threads(100, 1);
    for (int number = 0; number < 20; number++) {
        call(0, number);
        returned[0].store(number + 1);
    }
    print_returned();
    fault(word);
    CHECK(!"the program goes on");
}

// All threads fault at once.
void crashes_all() {
    nanolog::Session log(kLog, small());
    call_lines();
    std::vector<std::thread> threads;
    for (int thread = 0; thread < kThreads; thread++) threads.emplace_back(fault, word);
    for (std::thread &thread : threads) thread.join();
}

// The consumer sleeps long.
void crashes_idle() {
    nanolog::Session log(kLog, small());
    usleep(1500000);
    call_lines();
    fault(word);
}

// The text of a call isn't there.
void crashes_inside() {
    nanolog::Session log(kLog, small());
    call_lines();
    const char *volatile text = reinterpret_cast<const char *>(8);
    NANO_LOG(NOTICE, "text %s", text);
}

bool has_default(int signal) {
    struct sigaction found;
    CHECK(sigaction(signal, nullptr, &found) == 0);
    return found.sa_handler == SIG_DFL;
}

// The program's own handlers stay, and the others are put back.
void crash_actions() {
    std::signal(SIGFPE, SIG_IGN);
    const bool was_default = has_default(SIGILL);
    {
        nanolog::Options options;
        options.on_crash = false;
        nanolog::Session log(kLog, options);
        CHECK(has_default(SIGILL) == was_default);
    }
    {
        nanolog::Session log(kLog, small());
        CHECK(!has_default(SIGILL) && !has_default(SIGABRT));
        CHECK(std::signal(SIGFPE, SIG_DFL) == SIG_IGN);
        std::signal(SIGABRT, SIG_IGN);
    }
    CHECK(has_default(SIGILL) == was_default && has_default(SIGFPE));
    CHECK(std::signal(SIGABRT, SIG_DFL) == SIG_IGN);
}

// ---- forks

// Runs a child, which is to exit with 7.
template <class Run>
void in_child(Run run) {
    const pid_t child = fork();
    CHECK(child >= 0);
    if (child == 0) {
        run();
        std::exit(7);
    }
    int status = 0;
    CHECK(waitpid(child, &status, 0) == child);
    CHECK(WIFEXITED(status) && WEXITSTATUS(status) == 7);
}

void fork_child(nanolog::Session &log, int turn) {
    CHECK(!has_log() && !log && !log.flush() && log.report().is_clean());
    for (int number = 0; number < 1000; number++) NANO_LOG(NOTICE, "child %d", number);
    if (turn % 2 == 0) return;
    nanolog::Options options;
    options.quiet = true;
    nanolog::Session own("child.log", options);
    CHECK(own);
    call_lines();
    CHECK(own.flush());
    const nanolog::Report report = own.close();
    CHECK(report.logged == kLines && report.sessionless == 1000 && report.unwritten == 0);
    CHECK(log.close().is_clean());
}

// Children beside threads that log, whose rings are shorter than what a child logs.
void forks() {
    nanolog::Session log(kLog, small());
    CHECK(has_log());
    begin_threads(500);
    for (int turn = 0; turn < std::atoi(word); turn++) {
        in_child([&] { fork_child(log, turn); });
    }
    is_over = true;
    CHECK(log && log.flush() && has_log());
    const nanolog::Report report = log.close();
    CHECK(report.is_clean());
    print_returned();
}

// A child that was forked within a call, and whose parent goes on with it.
void forks_inside() {
    static bool is_forking = false, is_child = false;
    nanolog::Options options;
    options.keep_times = false;
    options.clock = [] {
        if (std::exchange(is_forking, false)) {
            const pid_t child = fork();
            CHECK(child >= 0);
            is_child = child == 0;
            int status = 0;
            if (!is_child) CHECK(waitpid(child, &status, 0) == child && WIFEXITED(status) && WEXITSTATUS(status) == 7);
        }
        return std::uint64_t{5};
    };
    nanolog::Session log(kLog, options);
    is_forking = true;
    call_lines();
    if (is_child) std::exit(7);
}

// A child that faults.
void fork_crashes() {
    nanolog::Session log(kLog, small());
    call_lines();
    const pid_t child = fork();
    CHECK(child >= 0);
    if (child == 0) {
        CHECK(has_default(SIGILL));
        std::abort();
    }
    int status = 0;
    CHECK(waitpid(child, &status, 0) == child && WIFSIGNALED(status) && WTERMSIG(status) == SIGABRT);
}

}  // namespace

int main(int count, char **words) {
    const Case cases[] = {
        {"returns", returns},
        {"exits", exits},
        {"exits_static", exits_static},
        {"exits_elsewhere", exits_elsewhere},
        {"exits_beside_close", exits_beside_close},
        {"exits_beside_sessions", exits_beside_sessions},
        {"exits_busy", exits_busy},
        {"exits_late", exits_late},
        {"underscore_exits", underscore_exits},
        {"quick_exits", quick_exits},
        {"throws", throws},
        {"throws_caught", throws_caught},
        {"signalled", signalled},
        {"handler", handler},
        {"handler_static", handler_static},
        {"handler_shared", handler_shared},
        {"handler_inside", handler_inside},
        {"handler_flush", handler_flush},
        {"crashes", crashes},
        {"crashes_all", crashes_all},
        {"crashes_idle", crashes_idle},
        {"crashes_inside", crashes_inside},
        {"crash_actions", crash_actions},
        {"forks", forks},
        {"forks_inside", forks_inside},
        {"fork_crashes", fork_crashes},
    };
    return run_case(cases, count, words);
}
