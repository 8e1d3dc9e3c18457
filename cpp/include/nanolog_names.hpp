// Under which names the parts of a log lie. It is part of nanolog.hpp.
#pragma once

#include <dirent.h>
#include <fcntl.h>
#include <sys/stat.h>
#include <sys/statfs.h>
#include <unistd.h>

#include <cstddef>
#include <cstdint>
#include <cstdio>
#include <cstdlib>
#include <cstring>

#include "nanolog_basics.hpp"
#include "nanolog_pile.hpp"

namespace nanolog {
inline namespace version_1 {
namespace detail {

// The name of a log, with something behind it.
struct PartName {
    PartName(const char *name, const char *behind) { std::snprintf(text, sizeof text, "%s%s", name, behind); }
    PartName(const char *name, std::uint64_t number) {
        std::snprintf(text, sizeof text, "%s.%06llu", name, static_cast<unsigned long long>(number));
    }

    char text[kMaxPath + 32];
};

// Where the file is to which a name leads, as a full name: the program may go to another folder.
class LogName {
   public:
    void find(const char *name) {
        constexpr int most_links = 40;
        char folder[kMaxPath];
        if (::getcwd(folder, sizeof folder - 1) == nullptr) folder[0] = 0;
        put_in_folder(folder, std::strlen(folder), name);
        for (int turn = 0; turn < most_links && follow(); turn++) {
        }
    }

    const char *path() const { return path_; }

    // What stands behind its folder, and that.
    const char *last() const {
        const char *const slash = std::strrchr(path_, '/');
        return slash != nullptr ? slash + 1 : path_;
    }
    void copy_folder(char (&room)[kMaxPath]) const {
        const auto len = static_cast<std::size_t>(last() - path_);
        std::memcpy(room, len != 0 ? path_ : ".", len != 0 ? len : 1);
        room[len != 0 ? len : 1] = 0;
    }

    // Whether it is a regular file, or will be one. A link of /proc leads to what the program, or another one, has open
    // for itself: that may be any file, and isn't the log's alone.
    bool is_regular() const { return is_regular_; }

    // The program's own descriptor that the name stands for, or -1.
    int descriptor() const {
        constexpr char front[] = "/proc/self/fd/";
        char *end = nullptr;
        if (std::strncmp(path_, front, sizeof front - 1) != 0) return -1;
        const long number = std::strtol(path_ + sizeof front - 1, &end, 10);
        return *end == 0 ? static_cast<int>(number) : -1;
    }

   private:
    static constexpr long kProc = 0x9fa0;  // the file system of this kind, as statfs has it

    // Takes a name in place of the one before, in this folder if it isn't a full one. What is too long leads nowhere.
    void put_in_folder(const char *folder, std::size_t len, const char *name) {
        char full[kMaxPath];
        const std::size_t front = name[0] == '/' || len == 0 ? 0 : len + 1, behind = std::strlen(name) + 1;
        if (front + behind > sizeof full) {
            path_[0] = 0;
            return;
        }
        if (front != 0) {
            std::memcpy(full, folder, len);
            full[len] = '/';
        }
        std::memcpy(full + front, name, behind);
        std::memcpy(path_, full, front + behind);
    }

    // Follows a symbolic link, if it is one, and answers whether it was. What can't be looked at is told when it is
    // opened.
    bool follow() {
        is_regular_ = true;
        const int file = ::open(path_, O_PATH | O_NOFOLLOW | O_CLOEXEC);
        if (file < 0) return false;
        struct stat found;
        struct statfs system;
        char target[kMaxPath];
        ssize_t len = -1;
        if (::fstat(file, &found) == 0 && ::fstatfs(file, &system) == 0) {
            const bool is_link = S_ISLNK(found.st_mode);
            is_regular_ = S_ISREG(found.st_mode) || (is_link && system.f_type != kProc);
            if (is_link && is_regular_) len = ::readlinkat(file, "", target, sizeof target - 1);
        }
        ::close(file);
        if (len <= 0) return false;
        target[len] = 0;
        const auto folder = static_cast<std::size_t>(last() - path_);
        put_in_folder(path_, folder != 0 ? folder - 1 : 0, target);
        return true;
    }

    char path_[kMaxPath] = "";
    bool is_regular_ = true;
};

// The numbers of the parts that are kept, of which the oldest ones go first. Those that were there are looked up when
// the session begins, and no memory is taken afterwards.
class PartNumbers {
   public:
    // Finds those that are there of a log. Where there is no memory for them they are kept.
    void find(const LogName &name, bool are_listed) {
        char folder[kMaxPath];
        name.copy_folder(folder);
        DIR *const entries = ::opendir(folder);
        if (entries == nullptr) return;
        while (const dirent *const entry = ::readdir(entries)) {
            const std::uint64_t number = number_of(entry->d_name, name.last());
            if (number == 0) continue;
            if (number > last_) last_ = number;
            if (are_listed) found_.add(number);
        }
        ::closedir(entries);
        first_made_ = last_ + 1;
        if (found_.count() != 0) std::qsort(found_.items(), found_.count(), sizeof *found_.items(), &compare);
    }

    // The greatest of all, or 0 where there is none.
    std::uint64_t last() const { return last_; }
    void add() { last_++; }

    std::uint64_t count() const { return found_.count() - removed_ + (last_ + 1 - first_made_); }

    // Takes the oldest one, of which there is one.
    std::uint64_t take_oldest() { return removed_ < found_.count() ? found_.items()[removed_++] : first_made_++; }

   private:
    // The number that stands behind the name of a log, with six digits or more, or 0.
    static std::uint64_t number_of(const char *name, const char *front) {
        constexpr std::size_t least = 6, most = 18;
        const std::size_t len = std::strlen(front);
        if (std::strncmp(name, front, len) != 0 || name[len] != '.') return 0;
        const char *const digits = name + len + 1;
        const std::size_t count = std::strspn(digits, "0123456789");
        if (digits[count] != 0 || count < least || count > most || (count > least && digits[0] == '0')) return 0;
        return std::strtoull(digits, nullptr, 10);
    }

    static int compare(const void *one, const void *other) {
        const auto left = *static_cast<const std::uint64_t *>(one), right = *static_cast<const std::uint64_t *>(other);
        return left < right ? -1 : left > right ? 1 : 0;
    }

    Pile<std::uint64_t> found_;  // in their order
    std::size_t removed_ = 0;    // so many of these are gone
    std::uint64_t first_made_ = 1, last_ = 0;
};

}  // namespace detail
}  // namespace version_1
}  // namespace nanolog
