// The file of a log, part by part. It is part of nanolog.hpp.
#pragma once

#include <sys/stat.h>
#include <unistd.h>

#include <atomic>
#include <cerrno>
#include <cstddef>
#include <cstdint>
#include <cstdio>
#include <cstring>

#include "nanolog_blocks.hpp"
#include "nanolog_files.hpp"
#include "nanolog_waiting.hpp"

namespace nanolog {
inline namespace version_1 {
namespace detail {

// A file that takes the bytes of a log, part by part. What fails is said at once, before anybody can see it by
// `is_failing`. Behind a gap nothing could be read: where writing fails, the part ends with its last whole block, and
// what comes is thrown away until a new part takes something. What isn't a regular file has no parts, and then that is
// all.
class LogFile {
   public:
    // Finds where it is. It answers false where another session writes it.
    bool find(const char *name, bool quiet, std::uint64_t part_bytes, std::uint32_t parts) {
        std::snprintf(name_, sizeof name_, "%s", name);
        is_quiet_ = quiet;
        part_bytes_ = part_bytes;
        files_.find(name, parts);
        return !files_.is_taken();
    }

    // Opens it for the first part. It answers false where another session writes it by now. Where it can't be opened,
    // that is a failure of the first write.
    bool open() {
        const int file = files_.open();
        if (file < 0 && is_parted() && errno == EWOULDBLOCK) return false;
        const int error = errno;
        if (file >= 0) take(file);
        if (file < 0) fail(error, "nothing is written");
        return true;
    }

    bool is_parted() const { return files_.is_parted(); }

    void write(const std::uint8_t *bytes, std::size_t len) {
        if (len == 0) return;
        if (!is_failing()) unwritten_before_ = unwritten_.get();
        const int file = file_.load();
        int error = 0;
        const std::size_t count = file >= 0 && is_taking_ ? put(file, bytes, len, error) : 0;
        written_.add(count);
        unwritten_.add(len - count);
        if (error != 0) {
            cut_back(file, error);
            fail(error, "nothing more is written");
        } else if (is_taking_ && !is_settled_ && blocks_.has_extent()) {
            settle();
        }
    }

    // ---- parts

    // Whether a new part is to begin where this one was given so many bytes: since these are enough, or to try again
    // what failed.
    bool is_due(std::uint64_t bytes) const {
        if (!is_parted() || (is_failing() ? is_taking_ : bytes < part_bytes_)) return false;
        return next_try_ == 0 || nanos_of(CLOCK_MONOTONIC) >= next_try_;
    }

    // Has a file ready for the next part. Where there is none, this part goes on.
    bool prepare() {
        const int file = file_.load();
        if (next_.load() >= 0 || is_reusable(file)) return true;
        const int next = file >= 0 && files_.is_newest(file) ? files_.open_beside() : files_.open();
        next_.store(next);
        if (next >= 0) return true;
        if (!is_failing() && !is_stuck_) tell(errno, "the part goes on, and a new one is tried once a second");
        is_stuck_ = true;
        next_try_ = time_after(kSecond);
        return false;
    }

    // What is written from now on belongs to a new part, for which there is a file. It answers whether that has the
    // log's name.
    bool next_part() {
        const int file = file_.load(), next = next_.exchange(-1);
        errno = ESTALE;
        if (next < 0) {
            if (!is_reusable(file) || ::ftruncate(file, 0) != 0) return refuse();
        } else if (!files_.put_in_place(next, file)) {
            files_.remove_beside(next);
            return refuse();
        } else if (file >= 0) {
            close();
        }
        take(next < 0 ? file : next);
        return true;
    }

    // ---- its end

    void close() {
        const int file = file_.exchange(-1), next = next_.exchange(-1);
        if (next >= 0) files_.remove_beside(next);
        if (file < 0) return;
        errno = EBADF;
        if (is_own(file) && unlock(file) && ::close(file) == 0) return;
        tell(errno, "what was written may be lost");
        error_.store(errno);
    }

    // Closes the descriptors that the child of a fork has of it.
    void leave() {
        for (std::atomic<int> *const one : {&file_, &next_}) {
            const int file = one->exchange(-1);
            if (file >= 0) ::close(file);
        }
    }

    // Says something of it on standard error, unless it is quiet.
    void remark(const char *what) const {
        if (!is_quiet_) say("nanolog: %s: %s", name_, what);
    }

    std::uint64_t written() const { return written_.get(); }
    std::uint64_t unwritten() const { return unwritten_.get(); }
    // How it failed last, and whether what comes now is thrown away, or was until now.
    int error() const { return error_.load(); }
    bool is_failing() const { return is_failing_.load(); }

   private:
    // `nanolog decompress` reads no more of a log.
    static constexpr std::uint64_t kMostBytes = 134217728;
    static constexpr int kUnreadable = -1;  // in place of an errno

    // Takes this file for a part.
    void take(int file) {
        if (::fstat(file, &made_) != 0) made_ = {};
        blocks_ = Blocks();
        is_taking_ = true;
        is_settled_ = is_stuck_ = false;
        next_try_ = 0;
        file_.store(file);
    }

    // The part has calls.
    void settle() {
        is_settled_ = true;
        if (is_parted()) files_.remove_oldest();
        if (!is_failing()) return;
        if (!is_quiet_) {
            say("nanolog: %s: it goes on in a new part; bytes not written meanwhile: %llu", name_,
                static_cast<unsigned long long>(unwritten_.get() - unwritten_before_));
        }
        is_failing_.store(false);
    }

    // Whether the newest file is one that took nothing, and is tried again.
    bool is_reusable(int file) const {
        return is_failing() && file >= 0 && !blocks_.has_extent() && files_.is_newest(file);
    }

    // Whether the descriptor is still that of the file: where somebody else has closed it, it may be another's by now.
    bool is_own(int file) const {
        struct stat found;
        return ::fstat(file, &found) == 0 && found.st_dev == made_.st_dev && found.st_ino == made_.st_ino;
    }

    bool unlock(int file) const {
        if (is_parted()) unlock_file(file);
        return true;
    }

    // Writes as much as the file takes, and no more than can be read, and answers how much that is.
    std::size_t put(int file, const std::uint8_t *bytes, std::size_t len, int &error) {
        std::size_t wanted = len;
        if (!is_own(file)) {
            error = EBADF;
            return 0;
        }
        if (blocks_.place() + len > kMostBytes) {
            Blocks ahead = blocks_;
            ahead.walk(bytes, len, kMostBytes);
            wanted = ahead.whole() > blocks_.place() ? static_cast<std::size_t>(ahead.whole() - blocks_.place()) : 0;
            error = kUnreadable;
        }
        const std::size_t count = write_all(file, bytes, wanted);
        if (count < wanted) error = errno;
        blocks_.walk(bytes, count, kMostBytes);
        return count;
    }

    // Ends a part with its last whole block. One without calls is left without anything.
    void cut_back(int file, int error) {
        const std::uint64_t whole = blocks_.has_extent() ? blocks_.whole() : 0, lost = blocks_.place() - whole;
        if (!is_parted() || error == EBADF || ::ftruncate(file, static_cast<off_t>(whole)) != 0) return;
        written_.set(written_.get() - lost);
        unwritten_.add(lost);
    }

    // Nothing is taken any more. A file that has parts is tried again.
    void fail(int error, const char *what) {
        const bool is_lost = !is_parted() || error == EBADF;
        const int file = is_lost ? file_.exchange(-1) : -1;
        if (file >= 0 && error != EBADF) ::close(file);
        is_taking_ = false;
        next_try_ = time_after(kSecond);
        error_.store(error != kUnreadable ? error : EFBIG);
        if (is_failing()) return;
        tell(error, is_parted() ? "it is tried again once a second, in a new part" : what);
        is_failing_.store(true);
    }

    bool refuse() {
        fail(errno, "");
        return false;
    }

    void tell(int error, const char *what) const {
        if (is_quiet_) return;
        if (error == kUnreadable) {
            say("nanolog: %s: a log of more than %llu bytes can't be read; %s", name_,
                static_cast<unsigned long long>(kMostBytes), what);
        } else {
            const bool is_taken = error == EWOULDBLOCK && is_parted();
            say("nanolog: %s: %s; %s", name_, is_taken ? "another session writes it" : std::strerror(error), what);
        }
    }

    char name_[256] = "";
    bool is_quiet_ = false;
    std::uint64_t part_bytes_ = 0;
    PartFiles files_;
    struct stat made_ {};
    std::atomic<int> file_{-1}, next_{-1}, error_{0};  // the part's file, and that of the next one
    std::atomic<bool> is_failing_{false};
    bool is_taking_ = false;   // there is a file for the part, and it hasn't failed
    bool is_settled_ = false;  // the part has calls
    bool is_stuck_ = false;    // no file was had for the next part
    std::uint64_t next_try_ = 0;
    Count written_, unwritten_;
    std::uint64_t unwritten_before_ = 0;  // as it failed first
    Blocks blocks_;
};

}  // namespace detail
}  // namespace version_1
}  // namespace nanolog
