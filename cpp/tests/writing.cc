// How sessions write: what is written at once, what can't be written, and what they do meanwhile. One case a run.
// usage: writing CASE [WORD]
#include <dlfcn.h>

#include <cerrno>
#include <cstdarg>
#include <vector>

#include "ends.hpp"

namespace {

std::atomic<bool> are_sleeps_endless{false};

// How often such a sleep began and ended: an odd number while there is one.
std::atomic<int> sleeps{0};

}  // namespace

// Stands before the C library's, by which the consumer sleeps, so that long sleeps only end where it is woken.
extern "C" long syscall(long number, ...) noexcept {
    // It may not be a static object that is made here: threads would wait for each other by this call.
    static std::atomic<long (*)(long, ...)> found{nullptr};
    if (found == nullptr) found = reinterpret_cast<long (*)(long, ...)>(dlsym(RTLD_NEXT, "syscall"));
    const auto original = found.load();
    va_list values;
    va_start(values, number);
    void *const place = va_arg(values, void *);
    const int operation = va_arg(values, int);
    const unsigned value = va_arg(values, unsigned);
    const timespec *const time = va_arg(values, const timespec *);
    va_end(values);
    const bool is_long = time != nullptr && time->tv_sec == 0 && time->tv_nsec >= 10000000;
    if (!is_long || !are_sleeps_endless) return original(number, place, operation, value, time, nullptr, 0);
    const timespec endless = {1000, 0};
    sleeps++;
    const long answer = original(number, place, operation, value, &endless, nullptr, 0);
    sleeps++;
    return answer;
}

namespace {

// ---- last words

// What is grave enough is printed, too, and as it stands in the log.
void echoes() {
    nanolog::Options options;
    options.echo = nanolog::Severity::Warning;
    nanolog::Session log(kLog, kDictionary, options);
    const std::string text(4001, 'x'), half(2500, 'y');
    NANO_LOG(DEBUG, "nothing of %s", text);
    NANO_LOG(ERROR, "nothing else");
    NANO_LOG(NOTICE, "a notice");
    NANO_LOG(WARNING, "%5.2d|%-4s|%.*s|%c|%p|100%%", 7, "ab", 3, text, 'z', static_cast<void *>(nullptr));
    NANO_LOG(ERROR, "%s", text);
    NANO_LOG(ERROR, "%s and %s", half, half);
    NANO_LOG(WARNING, "%s in quotes \"\\ \t\x01", static_cast<const char *>(nullptr));
    errno = ENOENT;
    NANO_LOG(ERROR, "%d", errno);
    CHECK(errno == ENOENT);
    log.set_level(nanolog::Severity::Off);
    NANO_LOG(ERROR, "left out");
    CHECK(log.report().logged == 8 && log.report().sessionless == 0);
}

// What is grave enough is written once its statement is over, whatever thread it is of.
void flushes_at() {
    nanolog::Options options = small();
    options.flush_at = nanolog::Severity::Error;
    nanolog::Session log(kLog, options);
    begin_threads(100, 1);
    for (int number = 0; number < 19; number++) call(0, number);
    returned[0].store(20);
    print_returned();
    errno = ENOENT;
    NANO_LOG(ERROR, "thread %d call %d", 0, 19);
    CHECK(errno == ENOENT);
    _exit(7);
}

// ---- files that fail, and pipes that nobody reads

// A file that fails, or couldn't be made, is told at the first failure.
void fails() {
    nanolog::Options options;
    options.quiet = std::strcmp(word, "quiet") == 0;
    nanolog::Session log(options.quiet ? "/dev/full" : word, options);
    call_lines();
    CHECK(!log.flush());
    mark("flushed");
    call_lines();
    CHECK(!log.flush() && !log);
    mark("flushed again");
    const nanolog::Report report = log.close();
    CHECK(report.error != 0 && report.unwritten > 0 && report.written == 0 && report.logged == 2 * kLines);
}

// So is one whose descriptor somebody else has closed.
void closes() {
    nanolog::Session log(kLog, small());
    call_lines();
    CHECK(log.flush() && close(descriptor_of_log()) == 0);
    call_lines();
    CHECK(!log.flush());
    mark("flushed");
}

// The descriptor is another file's by then.
void replaces() {
    nanolog::Session log(kLog, small());
    call_lines();
    const int descriptor = descriptor_of_log();
    CHECK(log.flush() && close(descriptor) == 0);
    CHECK(open("other", O_WRONLY | O_CREAT | O_TRUNC, 0600) == descriptor);
    call_lines();
    CHECK(!log.flush());
    mark("flushed");
    log.close();
    struct stat found;
    CHECK(fstat(descriptor, &found) == 0 && found.st_size == 0);
}

// The program runs without streams for its output, and prints to them all the same.
void no_streams() {
    for (int stream = 1; stream < 3; stream++) CHECK(close(stream) == 0);
    nanolog::Session log(kLog, small());
    call_lines();
    CHECK(log.flush());
    for (int stream = 1; stream < 3; stream++) CHECK(write(stream, "printed", 7) < 0 && errno == EBADF);
    call_lines();
}

// A log that has no parts grows beyond what can be read.
void too_large() {
    nanolog::Session log("/dev/null", small());
    const std::string text(4000, 'x');
    int number = 0;
    for (; log; number++) NANO_LOG(NOTICE, "%d %s", number, text);
    mark("told");
    const nanolog::Report report = log.close();
    CHECK(report.error == EFBIG && report.written <= 134217728 && report.written > 134217728 - 2000000);
}

// Makes a pipe whose reader doesn't read, and fills it.
void make_pipe(const char *name) {
    CHECK(mkfifo(name, 0600) == 0);
    const int reader = open(name, O_RDONLY | O_NONBLOCK);
    CHECK(reader >= 0);
    const int writer = open(name, O_WRONLY | O_NONBLOCK);
    CHECK(writer >= 0);
    const char bytes[4096] = {};
    while (write(writer, bytes, sizeof bytes) > 0) {
    }
    CHECK(errno == EAGAIN && close(writer) == 0);
}

nanolog::Options of_pipe() {
    nanolog::Options options = small();
    options.time_limit = 200;
    return options;
}

// Each member comes back, and another session can begin.
void pipe_closes() {
    make_pipe("pipe");
    {
        nanolog::Session log("pipe", of_pipe());
        call_lines();
        const std::uint64_t begun = milliseconds();
        CHECK(log && !log.flush(100) && !log.flush() && milliseconds() - begun >= 300);
        const nanolog::Report report = log.close(100);
        CHECK(report.timed_out && report.logged == kLines && report.written == 0 && milliseconds() - begun < 60000);
        CHECK(!log && !log.flush() && !report.is_clean());
    }
    mark("another one");
    nanolog::Session next(kLog, small());
    call_lines();
    CHECK(next.close().is_clean());
}

// A call that is flushed comes back, too.
void pipe_flushes_at() {
    make_pipe("pipe");
    nanolog::Options options = of_pipe();
    options.flush_at = nanolog::Severity::Error;
    nanolog::Session log("pipe", options);
    const std::uint64_t begun = milliseconds();
    NANO_LOG(ERROR, "an error");
    CHECK(milliseconds() - begun >= 200);
    log.close(0);
}

// Threads wait for room when the program ends.
void pipe_exits() {
    make_pipe("pipe");
    static nanolog::Options options = of_pipe();
    nanolog::Session log("pipe", options);
    for (int thread = 0; thread < kThreads; thread++) std::thread(call_on, thread, 100000).detach();
    usleep(100000);
    mark("exit");
    is_over = true;
    std::exit(7);
}

// A handler ends the program while its thread waits for room.
void handler_full() {
    make_pipe("pipe");
    static nanolog::Options options = of_pipe();
    nanolog::Session log("pipe", options);
    static const pthread_t thread = pthread_self();
    std::signal(SIGTERM, exit_of_handler);
    std::thread([] {
        for (int before = -1; returned[0].load() != before; usleep(50000)) before = returned[0].load();
        pthread_kill(thread, SIGTERM);
    }).detach();
    call_on(0, 100000);
}

// A fault while the pipe is stuck ends the program, too.
void pipe_crashes() {
    make_pipe("pipe");
    nanolog::Session log("pipe", of_pipe());
    call_lines();
    fault("abort");
}

// ---- members that are called at once

void members() {
    for (int turn = 0; turn < std::atoi(word); turn++) {
        is_over = false;
        nanolog::Options options = small();
        options.quiet = true;
        nanolog::Session log(kLog, options);
        std::vector<std::thread> threads;
        std::atomic<int> flushes{0};
        for (int thread = 0; thread < 2; thread++) {
            threads.emplace_back([&, thread] {
                for (int number = 0; !is_over; number++) call(thread, number);
            });
            threads.emplace_back([&] {
                for (; log.flush(60000); flushes++) {
                }
            });
            threads.emplace_back([&] {
                while (log) CHECK(log.report().error == 0);
                log.close();
            });
        }
        while (flushes.load() < 3) std::this_thread::yield();
        const nanolog::Report report = log.close();
        is_over = true;
        CHECK(!report.timed_out && report.unwritten == 0 && report.error == 0);
        for (std::thread &thread : threads) thread.join();
        CHECK(log.report().logged == report.logged && !log && !log.flush());
    }
}

// A clock that throws leaves no trace of its call.
void clock_throws() {
    static bool is_throwing = false;
    nanolog::Options options;
    options.writers = 2;
    options.keep_times = false;
    options.clock = [] {
        if (is_throwing) throw std::runtime_error("no time");
        return std::uint64_t{5};
    };
    nanolog::Session log(kLog, options);
    const auto call_twice = [] {
        for (const bool is_thrown : {false, true, false, true, false}) {
            is_throwing = is_thrown;
            bool is_caught = false;
            try {
                NANO_LOG(NOTICE, "thrown %d", is_thrown);
            } catch (const std::runtime_error &) {
                is_caught = true;
            }
            CHECK(is_caught == is_thrown);
        }
    };
    call_twice();
    // Another thread has the shared writer.
    std::thread(call_twice).join();
    is_throwing = false;
    CHECK(log.close().logged == 6);
    // A session whose clock throws doesn't begin, and the next one does.
    is_throwing = true;
    bool is_caught = false;
    try {
        nanolog::Session never("never.log", options);
    } catch (const std::runtime_error &) {
        is_caught = true;
    }
    CHECK(is_caught);
    is_throwing = false;
    nanolog::Session next("next.log", options);
    CHECK(next);
}

// ---- the consumer

// How often a thread of this name gave the processor up.
long switches(const char *name) {
    long count = -1;
    CHECK(std::system(("grep -l '^" + std::string(name) + "$' /proc/" + std::to_string(getpid()) +
                       "/task/*/comm | sed 's/comm$/status/' | xargs awk '/^voluntary/ { print $2 }' >switches")
                          .c_str()) == 0);
    std::FILE *const file = std::fopen("switches", "r");
    CHECK(file != nullptr && std::fscanf(file, "%ld", &count) == 1);
    std::fclose(file);
    return count;
}

// Where nothing is logged the consumer sleeps, and a call is written soon all the same.
void idle() {
    nanolog::Session log(kLog, small());
    call_lines();
    sleep(2);
    const long before = switches("nanolog");
    sleep(2);
    std::printf("%ld\n", switches("nanolog") - before);
    const std::uint64_t written = log.report().written;
    call_lines();
    for (int turn = 0; log.report().written == written; turn++) {
        CHECK(turn < 10000);
        usleep(10000);
    }
}

// Where the consumer sleeps long it is woken by half a ring of calls, by a full ring and by a flush.
void wakes() {
    nanolog::Options options = small();
    nanolog::Session log(kLog, options);
    call_lines();
    are_sleeps_endless = true;
    // Half a ring are 128 calls of four words.
    for (const int calls : {130, 1000, 1}) {
        for (int turn = 0; sleeps.load() % 2 == 0; turn++) {
            CHECK(turn < 6000);
            usleep(10000);
        }
        const std::uint64_t written = log.report().written;
        for (int number = 0; number < calls; number++) call(0, number);
        if (calls == 1) CHECK(log.flush(60000));
        for (int turn = 0; log.report().written == written; turn++) {
            CHECK(turn < 6000);
            usleep(10000);
        }
    }
    are_sleeps_endless = false;
    CHECK(log.close(60000).is_clean());
}

}  // namespace

int main(int count, char **words) {
    const Case cases[] = {
        {"handler_full", handler_full},
        {"echoes", echoes},
        {"flushes_at", flushes_at},
        {"pipe_flushes_at", pipe_flushes_at},
        {"fails", fails},
        {"closes", closes},
        {"replaces", replaces},
        {"no_streams", no_streams},
        {"too_large", too_large},
        {"pipe_closes", pipe_closes},
        {"pipe_exits", pipe_exits},
        {"pipe_crashes", pipe_crashes},
        {"members", members},
        {"clock_throws", clock_throws},
        {"idle", idle},
        {"wakes", wakes},
    };
    return run_case(cases, count, words);
}
