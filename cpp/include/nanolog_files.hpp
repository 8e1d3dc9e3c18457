// Where the parts of a log lie, which of them are kept, and who may write them. It is part of nanolog.hpp.
#pragma once

#include <fcntl.h>
#include <sys/file.h>
#include <sys/stat.h>
#include <unistd.h>

#include <cerrno>
#include <cstdint>
#include <cstdio>

#include "nanolog_basics.hpp"
#include "nanolog_names.hpp"

namespace nanolog {
inline namespace version_1 {
namespace detail {

// ---- descriptors. What closes one leaves errno.

inline void close_file(int file) {
    const int error = errno;
    ::close(file);
    errno = error;
}

// Opens a file for what is put behind all that it has. A program may run without standard streams: what it prints all
// the same isn't to go into the file, so this has none of their descriptors.
inline int open_file(const char *name, int flags) {
    const int file = ::open(name, O_WRONLY | O_APPEND | O_CLOEXEC | flags, 0666);
    if (file < 0 || file > STDERR_FILENO) return file;
    const int other = ::fcntl(file, F_DUPFD_CLOEXEC, STDERR_FILENO + 1);
    close_file(file);
    return other;
}

// Locks a file against other sessions. It answers false where one of them has the lock: what else fails is that of a
// file system without locks.
inline bool lock_file(int file) { return ::flock(file, LOCK_EX | LOCK_NB) == 0 || errno != EWOULDBLOCK; }

// Gives the lock up by name: it would last for as long as the child of a fork has the descriptor, too.
inline void unlock_file(int file) {
    const int error = errno;
    ::flock(file, LOCK_UN);
    errno = error;
}

// Whether a name leads to the file of this descriptor.
inline bool leads_to(const char *name, int file) {
    struct stat found, wanted;
    if (::lstat(name, &found) != 0 || ::fstat(file, &wanted) != 0) return false;
    return found.st_dev == wanted.st_dev && found.st_ino == wanted.st_ino;
}

// Renames a file, and leaves one alone that has the new name. Not every file system sees to that by itself.
inline bool rename_file(const char *name, const char *wanted) {
    if (::renameat2(AT_FDCWD, name, AT_FDCWD, wanted, RENAME_NOREPLACE) == 0) return true;
    if (errno != EINVAL && errno != ENOSYS) return false;
    if (::access(wanted, F_OK) != 0) return ::rename(name, wanted) == 0;
    errno = EEXIST;
    return false;
}

// ---- parts

// The files of a log's parts. The newest one has the name of the log, and the others have numbers. Each is locked as
// long as it is written. Descriptors are the caller's, and what answers -1 or false leaves an errno: EWOULDBLOCK where
// another session writes the file.
class PartFiles {
   public:
    // At most so many parts are kept beside the newest one; 0 stands for all.
    void find(const char *name, std::uint32_t most) {
        most_ = most;
        name_.find(name);
        if (is_parted()) numbers_.find(name_, most != 0);
    }

    // Whether the log has parts. What isn't a regular file is written as it is.
    bool is_parted() const { return name_.is_regular(); }

    // Whether another session writes the file.
    bool is_taken() const {
        const int file = is_parted() ? open_file(name_.path(), O_NOFOLLOW) : -1;
        if (file < 0) return false;
        const bool is_free = lock_file(file);
        if (is_free) unlock_file(file);
        ::close(file);
        return !is_free;
    }

    bool is_newest(int file) const { return leads_to(name_.path(), file); }

    // Opens a file of the log's name for a new part. One that is there, and holds something, is kept.
    int open() {
        if (!is_parted()) return open_plainly();
        for (int turn = 0; turn < kTurns; turn++) {
            const int file = open_file(name_.path(), O_CREAT | O_NOFOLLOW);
            if (file < 0) return -1;
            struct stat found;
            if (!lock_file(file) || ::fstat(file, &found) != 0) {
                close_file(file);
                return -1;
            }
            // Who had the lock may have renamed it meanwhile.
            if (is_newest(file)) {
                if (found.st_size == 0) return file;
                const int next = replace(file);
                give_up(file);
                return next;
            }
            give_up(file);
        }
        errno = EAGAIN;
        return -1;
    }

    // Opens a file for the part behind one. It gets the log's name later, so that nothing has happened where it isn't
    // had.
    int open_beside() const {
        const PartName next(name_.path(), kBeside);
        int file = open_file(next.text, O_CREAT | O_EXCL | O_NOFOLLOW);
        struct stat found;
        // A session that was killed may have left one.
        if (file < 0 && errno == EEXIST && ::lstat(next.text, &found) == 0) {
            errno = EEXIST;
            if (!S_ISREG(found.st_mode) || found.st_size != 0 || ::unlink(next.text) != 0) return -1;
            file = open_file(next.text, O_CREAT | O_EXCL | O_NOFOLLOW);
        }
        if (file >= 0) lock_file(file);
        return file;
    }

    // Gives it the log's name, and the part that has that a number. There is no moment in which the name leads nowhere,
    // and another session could take it, where the file system has hard links. Where the part was moved away, nothing
    // else is renamed.
    bool put_in_place(int next, int ended) {
        const PartName beside(name_.path(), kBeside);
        if (!leads_to(beside.text, next)) return is_newest(next);
        if (!is_newest(ended)) return rename_file(beside.text, name_.path());
        return give_number(ended) && ::rename(beside.text, name_.path()) == 0;
    }

    void remove_beside(int next) const {
        const int error = errno;
        const PartName beside(name_.path(), kBeside);
        if (leads_to(beside.text, next)) ::unlink(beside.text);
        give_up(next);
        errno = error;
    }

    // Closes a file, and gives its lock up.
    static void give_up(int file) {
        unlock_file(file);
        close_file(file);
    }

    // Removes the oldest parts, as far as there are more than are kept.
    void remove_oldest() {
        while (most_ != 0 && numbers_.count() > most_) ::unlink(PartName(name_.path(), numbers_.take_oldest()).text);
    }

   private:
    static constexpr int kTurns = 100;
    static constexpr const char *kBeside = ".new";

    // Opens a file that takes the place of the newest one, which is kept.
    int replace(int ended) {
        const int next = open_beside();
        if (next < 0 || put_in_place(next, ended)) return next;
        remove_beside(next);
        return -1;
    }

    int open_plainly() const {
        const int file = open_file(name_.path(), 0), own = name_.descriptor();
        // A socket can't be opened.
        return file < 0 && errno == ENXIO && own >= 0 ? ::fcntl(own, F_DUPFD_CLOEXEC, STDERR_FILENO + 1) : file;
    }

    // Gives the part of this descriptor, which has the log's name, the next number that is free.
    bool give_number(int ended) {
        // It has one where a session was killed before it went on, or where going on failed.
        if (numbers_.last() != 0 && leads_to(PartName(name_.path(), numbers_.last()).text, ended)) return true;
        for (int turn = 0; turn < kTurns; turn++) {
            const PartName kept(name_.path(), numbers_.last() + 1);
            const bool is_kept =
                ::link(name_.path(), kept.text) == 0 || (errno != EEXIST && rename_file(name_.path(), kept.text));
            if (!is_kept && errno != EEXIST) return false;
            numbers_.add();
            if (is_kept) return true;
        }
        return false;
    }

    LogName name_;
    PartNumbers numbers_;
    std::uint32_t most_ = 0;
};

}  // namespace detail
}  // namespace version_1
}  // namespace nanolog
