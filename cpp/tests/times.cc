// How the times of lines are kept right, one case a run.
// usage: times CASE [WORD]
// What the lines of times.log are to be, without their places, is written into times.expected.
#include <dlfcn.h>
#include <pthread.h>
#include <sys/syscall.h>
#include <sys/wait.h>
#include <unistd.h>

#include <cstring>
#include <ctime>
#include <nanolog.hpp>
#include <stdexcept>
#include <string>
#include <thread>

#include "blocks.hpp"
#include "check.hpp"

namespace {

constexpr const char *kLog = "times.log";
constexpr std::uint64_t kSecond = 1000000000;
constexpr std::uint64_t kHour = 3600 * kSecond;

// The system's own clock goes so many times as fast.
std::atomic<std::uint64_t> speed{1};

}  // namespace

// Stands before the C library's.
extern "C" int clock_gettime(clockid_t clock, timespec *time) noexcept {
    const long answer = syscall(SYS_clock_gettime, clock, time);
    if (answer == 0 && clock == CLOCK_MONOTONIC && speed != 1) {
        const std::uint64_t nanos =
            (static_cast<std::uint64_t>(time->tv_sec) * kSecond + static_cast<std::uint64_t>(time->tv_nsec)) * speed;
        time->tv_sec = static_cast<time_t>(nanos / kSecond);
        time->tv_nsec = static_cast<long>(nanos % kSecond);
    }
    return static_cast<int>(answer);
}

namespace {

const char *word = "";

// ---- clocks of the test's own

std::atomic<std::uint64_t> now{1000}, real{kBegin}, clock_reads{0}, real_reads{0};
const pthread_t main_thread = pthread_self();
bool is_elsewhere() { return pthread_equal(main_thread, pthread_self()) == 0; }

std::uint64_t read_clock() {
    clock_reads++;
    return now;
}
std::uint64_t read_real() {
    real_reads++;
    return real;
}

// A session by these clocks, in a time that goes fast.
nanolog::Options of_own(std::uint64_t rate = kSecond) {
    speed = 200;
    nanolog::Options options;
    options.ring = 1024;
    options.writers = 4;
    options.time_limit = 4000000;
    options.clock = read_clock;
    options.real_time = read_real;
    options.rate = rate;
    return options;
}

// Waits until the session has compared the two since now, and told of it.
void settle(nanolog::Session &log) {
    for (const std::uint64_t reads = real_reads + 2; real_reads < reads;) CHECK(log.flush());
    CHECK(log.flush());
}

// Lets some seconds go by, in which the session's thread doesn't sleep.
void pass(nanolog::Session &log) {
    for (int round = 0; round < 30; round++) {
        CHECK(log.flush());
        usleep(1000);
    }
}

// Logs a call, and expects its line at this time.
int calls = 0;
std::FILE *expected = nullptr;
void call_at(std::uint64_t nanos) {
    if (expected == nullptr) expected = std::fopen("times.expected", "w");
    CHECK(expected != nullptr);
    std::fprintf(expected, "%llu.%09llu call %d\n", static_cast<unsigned long long>(nanos / kSecond),
                 static_cast<unsigned long long>(nanos % kSecond), ++calls);
    NANO_LOG(NOTICE, "call %d", calls);
}

// Ends the session, and counts the clocks of its log.
std::size_t clocks_of(nanolog::Session &log, const char *name = kLog) {
    CHECK(log.close().is_clean());
    std::size_t count = 0;
    for (const Block &block : blocks_of(bytes_of_file(name))) count += block.tag == kClock;
    return count;
}

// ---- steps

// Real time steps to and fro, and what is less than a millisecond doesn't matter.
void steps() {
    nanolog::Session log(kLog, DICTIONARY, of_own());
    call_at(kBegin);
    now += 7;
    call_at(kBegin + 7);
    for (const bool is_forward : {true, false}) {
        is_forward ? real += kHour : real -= 2 * kHour;
        settle(log);
        now += 20;
        call_at(real + 20);
    }
    now += 500000;
    call_at(real + 20 + 500000);
    real += kSecond / 1000;
    now += 480000;
    settle(log);
    call_at(real - 19980);
    settle(log);
    real += kSecond / 1000;
    settle(log);
    now += 5;
    call_at(real + 5);
    CHECK(clocks_of(log) == 3);
}

// The clock goes a thousandth faster than real time: another one is told whenever it is a millisecond in front.
constexpr std::uint64_t kStep = 300 * kSecond / 1000;
std::atomic<std::uint64_t> drifted{0};
std::uint64_t read_fast() { return 1000 + drifted * (kStep + kStep / 1000); }
std::uint64_t read_slow() {
    real_reads++;
    return kBegin + drifted * kStep;
}

void drifts() {
    nanolog::Options options = of_own();
    options.clock = read_fast;
    options.real_time = read_slow;
    nanolog::Session log(kLog, DICTIONARY, options);
    for (std::uint64_t turn = 1; turn <= 40; turn++) {
        drifted = turn;
        settle(log);
        // It was told a turn before at the latest, and then a tick behind what was read.
        const std::uint64_t apart = turn % 4 != 0 ? turn % 4 : 4;
        call_at(kBegin + turn * kStep + apart * (kStep / 1000));
    }
    CHECK(clocks_of(log) == 9);
}

// A program whose clock is the system's, as real time steps, which is asleep or logs all the while.
std::atomic<std::int64_t> stepped{0};
std::uint64_t read_stepped() {
    timespec time{};
    clock_gettime(CLOCK_REALTIME, &time);
    return static_cast<std::uint64_t>(time.tv_sec + stepped) * kSecond + static_cast<std::uint64_t>(time.tv_nsec);
}

void soon() {
    nanolog::Options options;
    options.ring = 1024;
    options.real_time = read_stepped;
    nanolog::Session log(kLog, DICTIONARY, options);
    std::atomic<bool> is_over{false};
    std::thread other([&] {
        while (!is_over && std::strcmp(word, "busy") == 0) {
            NANO_LOG(DEBUG, "busy");
            usleep(20);
        }
    });
    usleep(1500000);
    for (const int hours : {0, 1, -1, 0}) {
        stepped = 3600 * hours;
        sleep(2);
        const std::uint64_t nanos = read_stepped();
        NANO_LOG(NOTICE, "%llu", static_cast<unsigned long long>(nanos));
    }
    is_over = true;
    other.join();
    CHECK(log.close().is_clean());
}

// Where nothing steps no clock is told, and where it isn't asked for none is compared.
void still() {
    nanolog::Options options;
    options.ring = 1024;
    nanolog::Session log(kLog, DICTIONARY, options);
    for (int turn = 0; turn < 30; turn++) {
        NANO_LOG(NOTICE, "turn %d", turn);
        usleep(100000);
    }
    CHECK(clocks_of(log) == 0);
}

void unkept() {
    nanolog::Options options = of_own();
    options.keep_times = false;
    options.nanos = kBegin + kHour;
    nanolog::Session log(kLog, DICTIONARY, options);
    real += kHour;
    now += 3;
    pass(log);
    call_at(kBegin + kHour + 3);
    CHECK(clocks_of(log) == 0 && real_reads == 1 && clock_reads == 2);
}

// ---- 255 clocks

// One step more than there are clocks: it is told once, and no line is lost.
void many() {
    nanolog::Options options = of_own();
    options.quiet = std::strcmp(word, "quiet") == 0;
    nanolog::Session log(kLog, DICTIONARY, options);
    for (int step = 1; step <= 255; step++) {
        step % 3 == 0 ? real -= kHour : real += kHour;
        settle(log);
        now += 10;
        call_at(real + 10);
    }
    const std::uint64_t last = real + 10;
    real += kHour;
    for (const std::uint64_t reads = real_reads + 1; real_reads < reads;) CHECK(log.flush());
    CHECK(log.flush());
    const std::uint64_t reads = real_reads;
    for (std::uint64_t turn = 1; turn <= 3; turn++) {
        real += kHour;
        pass(log);
        CHECK(real_reads == reads);
        now += 10;
        call_at(last + 10 * turn);
    }
    CHECK(clocks_of(log) == 255);
}

// ---- a clock of the program's own

// The time of a tick so many behind one at this time.
std::uint64_t behind(std::uint64_t nanos, std::uint64_t ticks, std::uint64_t rate) {
    return nanos + ticks / rate * kSecond + ticks % rate * kSecond / rate;
}

// Clocks of other rates. Within a tick real time may be anywhere.
void rates() {
    const std::uint64_t rate = std::strtoull(word, nullptr, 10);
    nanolog::Session log(kLog, DICTIONARY, of_own(rate));
    call_at(kBegin);
    real += rate < 1000 ? kSecond / rate : kSecond / 2000;
    settle(log);
    now += 2;
    call_at(behind(kBegin, 2, rate));
    real += 2 * kSecond / rate;
    settle(log);
    now += 1;
    call_at(behind(kBegin, 3, rate));
    real += kHour;
    settle(log);
    now += 1;
    const std::uint64_t first = real + kSecond / rate;
    call_at(first);
    now += 5;
    call_at(behind(first, 5, rate));
    CHECK(clocks_of(log) == 1);
}

// The time at the beginning is the program's, and goes on as real time does.
void nanos() {
    nanolog::Options options = of_own();
    options.nanos = 5 * kSecond;
    nanolog::Session log(kLog, DICTIONARY, options);
    call_at(5 * kSecond);
    real += kHour;
    settle(log);
    now += 2;
    call_at(5 * kSecond + kHour + 2);
    // Before 1970 there is no time.
    real -= kHour + 6 * kSecond;
    settle(log);
    now += 2;
    call_at(5 * kSecond + kHour + 4);
    CHECK(clocks_of(log) == 1);
}

// A clock that stands still while real time goes on: calls keep its time.
void stands() {
    nanolog::Session log(kLog, DICTIONARY, of_own());
    for (int turn = 0; turn < 100; turn++) {
        real += kSecond;
        settle(log);
        call_at(kBegin);
    }
    now += 1;
    call_at(kBegin + kSecond + 1);
    CHECK(clocks_of(log) == 1);
}

// A clock that falls. Who logs has the stamp of the call before, and another clock is told where it has come beyond the
// last one.
void falls() {
    nanolog::Session log(kLog, DICTIONARY, of_own());
    call_at(kBegin);
    real += kHour;
    settle(log);
    now -= 500;
    real += kHour;
    settle(log);
    call_at(kBegin);
    now += 502;
    settle(log);
    now += 1;
    call_at(real + 1);
    CHECK(log.close().early == 1 && !log.report().is_clean());
}

// A call whose stamp lies ahead was taken: another clock is told once the program's has come beyond it.
void ahead() {
    nanolog::Session log(kLog, DICTIONARY, of_own());
    call_at(kBegin);
    now += 1000;
    call_at(kBegin + 1000);
    CHECK(log.flush());
    now -= 900;
    real += kHour;
    settle(log);
    // From now on it is read in each round.
    const std::uint64_t reads = real_reads;
    pass(log);
    CHECK(real_reads > reads + 20);
    now += 1000;
    settle(log);
    now += 1;
    call_at(real + 1);
    CHECK(clocks_of(log) == 1);
}

// A clock that goes on between its readings, as where the thread is held up: nothing can be said of it then.
std::atomic<bool> is_held_up{false};
std::uint64_t read_held_up() {
    if (is_held_up && is_elsewhere()) now += 60000;
    return read_clock();
}

void held_up() {
    nanolog::Options options = of_own();
    options.clock = read_held_up;
    nanolog::Session log(kLog, DICTIONARY, options);
    is_held_up = true;
    real += kHour;
    for (const std::uint64_t reads = real_reads + 10; real_reads < reads;) CHECK(log.flush());
    NANO_LOG(NOTICE, "held up");
    real += kHour;
    is_held_up = false;
    settle(log);
    now += 2;
    call_at(real + 2);
    CHECK(clocks_of(log) == 1);
}

// Functions that throw, on the session's thread alone.
std::atomic<bool> is_thrown{false};
std::uint64_t throw_clock() {
    if (is_thrown && is_elsewhere()) throw std::runtime_error("no clock");
    return read_clock();
}
std::uint64_t throw_real() {
    const std::uint64_t nanos = read_real();
    if (is_thrown && is_elsewhere()) throw 5;
    return nanos;
}

void throws() {
    nanolog::Options options = of_own();
    if (std::strcmp(word, "clock") == 0) {
        options.clock = throw_clock;
    } else {
        options.real_time = throw_real;
    }
    nanolog::Session log(kLog, DICTIONARY, options);
    is_thrown = true;
    real += kHour;
    pass(log);
    now += 1;
    call_at(kBegin + 1);
    is_thrown = false;
    settle(log);
    now += 2;
    call_at(real + 2);
    CHECK(clocks_of(log) == 1);
}

// A function that logs itself: that is refused.
std::atomic<bool> is_logging{false};
std::uint64_t log_real() {
    if (is_logging && is_elsewhere()) NANO_LOG(NOTICE, "of a clock");
    return read_real();
}

void logs() {
    nanolog::Options options = of_own();
    options.real_time = log_real;
    nanolog::Session log(kLog, DICTIONARY, options);
    is_logging = true;
    real += kHour;
    settle(log);
    now += 2;
    call_at(real + 2);
    is_logging = false;
    settle(log);
    const nanolog::Report report = log.close();
    CHECK(report.logged == 1 && report.unplaced > 0 && report.unplaced < real_reads);
}

// ---- sessions

// A session that begins anew with the statements of a plugin has the clocks that were told before.
void anew() {
    nanolog::Session log(kLog, DICTIONARY, of_own());
    for (int turn = 0; turn < 3; turn++) {
        real += kHour;
        settle(log);
        now += 10;
    }
    settle(log);
    void *const handle = dlopen("./times_plugin.so", RTLD_NOW | RTLD_LOCAL);
    CHECK(handle != nullptr);
    const auto call = reinterpret_cast<void (*)(int)>(dlsym(handle, "of_plugin"));
    CHECK(call != nullptr);
    call(0);
    call_at(real + 10);
    real -= kHour;
    settle(log);
    now += 10;
    call(0);
    call_at(real + 10);
    const nanolog::Report report = log.close();
    CHECK(report.is_clean() && report.logged == 4);
}

// The child of a fork has a session of its own, and its parent goes on with the first one.
void forks() {
    nanolog::Session log(kLog, DICTIONARY, of_own());
    real += kHour;
    settle(log);
    now += 2;
    call_at(real + 2);
    const pid_t child = fork();
    CHECK(child >= 0);
    if (child == 0) {
        nanolog::Session own("child.log", DICTIONARY, of_own());
        real += kHour;
        settle(own);
        now += 2;
        NANO_LOG(NOTICE, "child");
        CHECK(clocks_of(own, "child.log") == 1);
        _exit(7);
    }
    int status = 0;
    CHECK(waitpid(child, &status, 0) == child && WIFEXITED(status) && WEXITSTATUS(status) == 7);
    real += kHour;
    settle(log);
    now += 2;
    call_at(real + 2);
    CHECK(clocks_of(log) == 2);
}

}  // namespace

int main(int count, char **words) {
    CHECK(count == 2 || count == 3);
    if (count == 3) word = words[2];
    const struct {
        const char *name;
        void (*run)();
    } cases[] = {
        {"steps", steps},
        {"drifts", drifts},
        {"soon", soon},
        {"still", still},
        {"unkept", unkept},
        {"many", many},
        {"rates", rates},
        {"nanos", nanos},
        {"stands", stands},
        {"falls", falls},
        {"ahead", ahead},
        {"held_up", held_up},
        {"throws", throws},
        {"logs", logs},
        {"anew", anew},
        {"forks", forks},
    };
    for (const auto &one : cases) {
        if (std::strcmp(words[1], one.name) != 0) continue;
        one.run();
        CHECK(expected == nullptr || std::fclose(expected) == 0);
        return 0;
    }
    CHECK(!"a case has this name");
    return 0;
}
