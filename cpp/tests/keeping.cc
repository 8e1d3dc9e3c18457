// How the parts of a log are kept, and who may write it. One case a run.
// usage: keeping CASE [WORD]
#include <sys/file.h>
#include <sys/syscall.h>
#include <sys/wait.h>

#include <cerrno>
#include <vector>

#include "ends.hpp"

namespace {

// Whether writes into files fail, as those into a full disk do, but for those on standard streams.
std::atomic<bool> is_full{false};

}  // namespace

// Stands before the C library's, so that writes can fail.
extern "C" ssize_t write(int descriptor, const void *bytes, std::size_t len) {
    if (is_full && descriptor > STDERR_FILENO) {
        // The first bytes are still taken, which tears a block.
        static std::atomic<bool> is_torn{false};
        if (len > 100 && !is_torn.exchange(true)) return syscall(SYS_write, descriptor, bytes, 100);
        errno = ENOSPC;
        return -1;
    }
    return syscall(SYS_write, descriptor, bytes, len);
}

namespace {

bool is_there(const char *name) { return access(name, F_OK) == 0; }

void call_many(int thread, int first, int calls) {
    for (int number = first; number < first + calls; number++) call(thread, number);
}

// Threads log so many calls each.
void call_all(int calls) {
    std::vector<std::thread> threads;
    for (int thread = 0; thread < kThreads; thread++) threads.emplace_back(call_many, thread, 0, calls);
    for (std::thread &thread : threads) thread.join();
}

// ---- parts

// Four threads log into parts of so many bytes.
void parts() {
    nanolog::Options options;
    options.part_bytes = std::strtoull(word, nullptr, 10);
    options.batch = 64;
    nanolog::Session log(kLog, options);
    call_all(options.part_bytes < 10000 ? 5000 : 100000);
    CHECK(log && log.flush());
    CHECK(log.close().is_clean());
}

// Two parts are kept, beside those that somebody else may have made.
void keeps_two() {
    nanolog::Options options;
    options.part_bytes = 20000;
    options.batch = 64;
    options.parts = 2;
    nanolog::Session log(kLog, options);
    call_all(20000);
    CHECK(log.close().is_clean());
}

// Several threads ask for parts, while others log.
void rotates() {
    nanolog::Options options = small();
    nanolog::Session log(kLog, options);
    std::vector<std::thread> threads;
    for (int thread = 0; thread < 4; thread++) {
        threads.emplace_back([&] {
            for (int turn = 0; turn < 10; turn++) CHECK(log.rotate());
        });
    }
    call_all(20000);
    for (std::thread &thread : threads) thread.join();
    CHECK(log.close().is_clean());
    CHECK(!log.rotate());
}

// What was logged before is in the part before.
void rotates_between() {
    nanolog::Session log(kLog, small());
    for (int part = 0; part < 3; part++) {
        if (part != 0) CHECK(log.rotate());
        call(0, part);
    }
}

// Somebody moves the file, or moves it and makes another one.
void moved() {
    nanolog::Session log(kLog, small());
    call(0, 0);
    CHECK(log.flush() && std::rename(kLog, "moved.1") == 0);
    call(0, 1);
    CHECK(log.rotate());
    call(0, 2);
    CHECK(log.flush() && std::rename(kLog, "moved.2") == 0);
    const int made = open(kLog, O_WRONLY | O_CREAT | O_EXCL, 0600);
    CHECK(made >= 0 && close(made) == 0 && log.rotate());
    call(0, 3);
    CHECK(log.flush() && std::rename(kLog, "moved.3") == 0);
    std::FILE *const other = std::fopen(kLog, "w");
    CHECK(other != nullptr && std::fputs("of somebody else\n", other) >= 0 && std::fclose(other) == 0);
    CHECK(log.rotate());
    call(0, 4);
    struct stat found;
    CHECK(stat("moved.1", &found) == 0 && log.close().is_clean());
}

// The program goes to another folder.
void elsewhere() {
    nanolog::Session log(kLog, small());
    call(0, 0);
    CHECK(chdir("/") == 0 && log.rotate());
    call(0, 1);
}

// A statement comes when parts have begun, and nothing was logged.
void begins_anew() {
    nanolog::Session log(kLog, small());
    CHECK(log.rotate() && log.rotate());
    call(0, 0);
}

// ---- what is there

void sessions() {
    for (int session = 0; session < 200; session++) {
        nanolog::Session log(kLog, small());
        call(0, session);
    }
}

void one() {
    nanolog::Session log(kLog, small());
    call(0, 0);
}

void killed() {
    nanolog::Session log(kLog, small());
    call(0, 0);
    CHECK(log.flush());
    raise(SIGKILL);
}

// Options that can't be.
void bad_options() {
    for (const std::uint64_t bytes : {std::uint64_t{0}, nanolog::Options::kPartBytes + 1}) {
        nanolog::Options options = small();
        options.part_bytes = bytes;
        const nanolog::Session log(kLog, options);
        CHECK(!log);
    }
    CHECK(!is_there(kLog));
}

// ---- locks

// Another process, and one more session of this one, are refused.
void locked() {
    const int lock = open(kLog, O_WRONLY | O_CREAT, 0600);
    CHECK(lock >= 0 && write(lock, "kept", 4) == 4 && flock(lock, LOCK_EX | LOCK_NB) == 0);
    {
        nanolog::Session log(kLog, small());
        CHECK(!log);
        call(0, 0);
        CHECK(log.report().sessionless == 1);
    }
    CHECK(!is_there("ends.log.000001") && close(lock) == 0);
    nanolog::Session log(kLog, small());
    CHECK(log && is_there("ends.log.000001"));
}

// Runs this program anew, and answers its status.
int run_other(const char *name) {
    const pid_t child = fork();
    CHECK(child >= 0);
    if (child == 0) {
        execl("/proc/self/exe", "keeping", name, nullptr);
        _exit(99);
    }
    int status = 0;
    CHECK(waitpid(child, &status, 0) == child && WIFEXITED(status));
    return WEXITSTATUS(status);
}

void refused() {
    const nanolog::Session log(kLog);
    CHECK(!log);
}

void second_process() {
    nanolog::Session log(kLog, small());
    for (int turn = 0; turn < 20; turn++) {
        call(0, turn);
        CHECK(run_other("refused") == 0 && log.rotate());
    }
    CHECK(log.close().is_clean() && run_other("one") == 0);
}

// A child that lives longer than the session locks nobody out, also where it wasn't told of the fork.
void child_stays() {
    int ends[2];
    CHECK(pipe(ends) == 0);
    pid_t child = -1;
    {
        nanolog::Session log(kLog, small());
        call(0, 0);
        CHECK(log.flush());
        child = static_cast<pid_t>(syscall(SYS_fork));
        if (child == 0) {
            char byte;
            close(ends[1]);
            _exit(read(ends[0], &byte, 1) == 0 ? 0 : 1);
        }
        CHECK(log.rotate());
        call(0, 1);
    }
    {
        nanolog::Session next(kLog, small());
        CHECK(next);
        call(0, 2);
    }
    int status = 0;
    CHECK(close(ends[1]) == 0 && waitpid(child, &status, 0) == child && status == 0);
}

// ---- other files

void plain_file() {
    {
        nanolog::Session log(word, small());
        call(0, 0);
        CHECK(!log.rotate() && log.flush() == (std::strcmp(word, "/dev/full") != 0));
    }
    nanolog::Session log(word, small());
    call(0, 1);
}

// ---- failures

// The disk is full for three seconds. What was written before stays readable, and it goes on in one new part.
void full() {
    nanolog::Options options = small();
    options.batch = 8;
    nanolog::Session log(kLog, options);
    call_many(0, 0, 1000);
    CHECK(log.flush() && log);
    is_full = true;
    call_many(0, 1000, 1000);
    CHECK(!log.flush() && !log);
    mark("full");
    for (int turn = 0; turn < 30; turn++) {
        call(0, 2000 + turn);
        usleep(100000);
    }
    CHECK(!log && is_there("ends.log.000001") && !is_there("ends.log.000002"));
    is_full = false;
    mark("emptied");
    for (int turn = 0; !log; turn++) {
        CHECK(turn < 100);
        call(0, 3000 + turn);
        usleep(100000);
    }
    mark("goes on");
    call_many(0, 4000, 1000);
    CHECK(log.flush() && log);
    const nanolog::Report report = log.close();
    CHECK(report.error == ENOSPC && report.unwritten > 1000 && !report.is_clean());
}

// The folder isn't there when the session begins.
void no_folder() {
    nanolog::Session log("later/ends.log", small());
    call(0, 0);
    CHECK(!log && !log.flush());
    mark("made");
    CHECK(mkdir("later", 0700) == 0);
    for (int turn = 0; !log; turn++) {
        CHECK(turn < 100);
        call(0, 1 + turn);
        usleep(100000);
    }
    CHECK(log.flush());
}

// No file can be had for the next part: the part goes on, and nothing is lost.
void stuck() {
    nanolog::Session log(kLog, small());
    call(0, 0);
    CHECK(log.flush());
    rlimit before;
    CHECK(getrlimit(RLIMIT_NOFILE, &before) == 0);
    const rlimit none = {3, before.rlim_max};
    CHECK(setrlimit(RLIMIT_NOFILE, &none) == 0);
    CHECK(!log.rotate() && !log.rotate() && log);
    call(0, 1);
    CHECK(setrlimit(RLIMIT_NOFILE, &before) == 0 && log.rotate());
    call(0, 2);
    CHECK(log.close().is_clean());
}

}  // namespace

int main(int count, char **words) {
    const Case cases[] = {
        {"parts", parts},
        {"keeps_two", keeps_two},
        {"rotates", rotates},
        {"rotates_between", rotates_between},
        {"moved", moved},
        {"elsewhere", elsewhere},
        {"begins_anew", begins_anew},
        {"sessions", sessions},
        {"one", one},
        {"killed", killed},
        {"bad_options", bad_options},
        {"locked", locked},
        {"refused", refused},
        {"second_process", second_process},
        {"child_stays", child_stays},
        {"plain_file", plain_file},
        {"full", full},
        {"no_folder", no_folder},
        {"stuck", stuck},
    };
    return run_case(cases, count, words);
}
