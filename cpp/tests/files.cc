// Logs into a file that fails, and prints what the report says of it.
// usage: files LOG plain|close|limit|mend|between
//   plain     the file is as it is: it can't be made, or the device is full, or its reader goes
//   close     its descriptor is closed in mid-stream
//   limit     files may not have more than 100,000 bytes
//   mend      nothing fails, but each write takes few bytes, and every other one is interrupted
//   between   a call is made and flushed while another one is being written; flushed.log is a copy of the log from then
// It prints: calls logged, bytes written, bytes not written, and the error.
#include <dirent.h>
#include <sys/resource.h>
#include <sys/stat.h>
#include <sys/syscall.h>
#include <unistd.h>

#include <cerrno>
#include <cstring>
#include <nanolog.hpp>
#include <string>
#include <thread>

#include "check.hpp"

namespace {

constexpr int kCalls = 40000;

std::atomic<bool> is_mending{false};

// Whether each write takes a while before it writes.
std::atomic<bool> is_slow{false};
constexpr unsigned kWhile = 200000;

// Closes each descriptor of the file, as a program may by mistake, and answers how many there were.
int close_all(const char *name) {
    struct stat wanted;
    CHECK(stat(name, &wanted) == 0);
    int closed = 0;
    for (int descriptor = 3; descriptor < 64; descriptor++) {
        struct stat found;
        if (fstat(descriptor, &found) == 0 && found.st_ino == wanted.st_ino && found.st_dev == wanted.st_dev) {
            CHECK(close(descriptor) == 0);
            closed++;
        }
    }
    return closed;
}

}  // namespace

// Stands before the C library's, so that writes can be made short.
extern "C" ssize_t write(int descriptor, const void *bytes, std::size_t len) {
    static std::atomic<unsigned> turn{0};
    if (is_mending) {
        if (turn++ % 2 == 0) {
            errno = EINTR;
            return -1;
        }
        if (len > 1000) len = 1000;
    }
    if (is_slow) usleep(kWhile);
    return syscall(SYS_write, descriptor, bytes, len);
}

namespace {

// A flush that is asked for while calls before it are being written waits for those behind them, too.
void flush_between(nanolog::Session &log, const char *name) {
    CHECK(log.flush());
    is_slow = true;
    std::thread other([&] {
        NANO_LOG(NOTICE, "made first");
        CHECK(log.flush());
    });
    usleep(kWhile / 2);
    NANO_LOG(NOTICE, "made in between");
    CHECK(log.flush());
    CHECK(std::system((std::string("cp ") + name + " flushed.log").c_str()) == 0);
    is_slow = false;
    other.join();
}

}  // namespace

int main(int count, char **words) {
    CHECK(count == 3);
    const std::string way = words[2];
    if (way == "limit") {
        const rlimit limit = {100000, 100000};
        CHECK(setrlimit(RLIMIT_FSIZE, &limit) == 0);
    }
    is_mending = way == "mend";
    nanolog::Options options;
    options.ring = 4096;
    options.quiet = true;
    nanolog::Session log(words[1], DICTIONARY, options);
    if (way == "between") {
        flush_between(log, words[1]);
        return 0;
    }
    for (int number = 0; number < kCalls; number++) {
        NANO_LOG(NOTICE, "call %d of %d: %s", number, kCalls, "a text of some length");
        if (way == "close" && number == kCalls / 2) {
            CHECK(log.flush());
            CHECK(close_all(words[1]) == 1);
        }
    }
    const bool is_written = log.flush();
    const nanolog::Report open_report = log.report();
    CHECK(is_written == static_cast<bool>(log));
    CHECK(is_written == (open_report.error == 0) && is_written == (open_report.unwritten == 0));
    const nanolog::Report report = log.close();
    CHECK(report.error == open_report.error && report.unwritten >= open_report.unwritten);
    std::printf("%llu %llu %llu %s\n", static_cast<unsigned long long>(report.logged),
                static_cast<unsigned long long>(report.written), static_cast<unsigned long long>(report.unwritten),
                report.error == 0 ? "none" : std::strerror(report.error));
    return 0;
}
