// The dictionary of a session. It is part of nanolog.hpp.
#pragma once

#include <unistd.h>

#include <cerrno>
#include <climits>
#include <cstddef>
#include <cstdint>
#include <cstdio>
#include <cstring>

#include "nanolog_hub.hpp"
#include "nanolog_pile.hpp"

namespace nanolog {
inline namespace version_1 {
namespace detail {

// A text in quotation marks, byte by byte, as what it stands for.
class SpelledText {
   public:
    // Of a text that stands for itself, up to a NUL.
    explicit SpelledText(const char *text) : at_(text), end_(text + std::strlen(text)), is_spelled_(false) {}
    // Of one in quotation marks; `at` stands behind the first one, before `end`.
    SpelledText(const char *at, const char *end) : at_(at), end_(end), is_spelled_(true) {}

    // The next byte, or -1 where there is none.
    int next() {
        if (at_ == end_ || (is_spelled_ && *at_ == '"')) return -1;
        const char byte = *at_++;
        return is_spelled_ && byte == '\\' && at_ != end_ ? escaped() : static_cast<unsigned char>(byte);
    }

    // What stands behind it, once there is no next byte.
    const char *behind() const { return at_ == end_ ? at_ : at_ + 1; }

   private:
    int escaped() {
        const char byte = *at_++;
        if (byte == 'n') return '\n';
        if (byte == 't') return '\t';
        if (byte != 'x' || end_ - at_ < 2) return static_cast<unsigned char>(byte);
        const int high = digit(*at_++);
        return 16 * high + digit(*at_++);
    }

    static int digit(char byte) {
        const char lower = static_cast<char>(byte | 0x20);
        return byte <= '9' ? byte - '0' : (lower - 'a' + 10) & 15;
    }

    const char *at_;
    const char *end_;
    bool is_spelled_;
};

// Where the file with this name is: there, or else beside the program. It may be written into this room.
inline const char *find_beside(const char *name, char *room, std::size_t len) {
    if (name == nullptr || access(name, F_OK) == 0) return name;
    const ssize_t read = readlink("/proc/self/exe", room, len - 1);
    if (read <= 0) return name;
    room[read] = 0;
    char *const end = std::strrchr(room, '/');
    const char *const last = std::strrchr(name, '/');
    const char *const wanted = last != nullptr ? last + 1 : name;
    if (end == nullptr || static_cast<std::size_t>(end + 1 - room) + std::strlen(wanted) >= len) return name;
    std::strcpy(end + 1, wanted);
    return access(room, F_OK) == 0 ? room : name;
}

// The text of a dictionary: the messages of a file, if there is one, and others behind them.
class Dictionary {
   public:
    // Begins with what a file holds, or with no message where there is no name. It answers an errno.
    int begin(const char *name) {
        static constexpr char front[] = "nanolog-trace 1\n";
        const int error = name != nullptr ? read(name) : text_.add(front, sizeof front - 1) ? 0 : ENOMEM;
        return error != 0 ? error : index() ? 0 : ENOMEM;
    }

    // The id of a message, or kUnknown.
    std::uint32_t find(const Message &message) const {
        if (hashes_.count() == 0) return kUnknown;
        const std::uint64_t hash =
            hash_of(message.severity, message.line, SpelledText(message.file), SpelledText(message.format));
        for (std::size_t at = hash & mask();; at = (at + 1) & mask()) {
            const std::uint32_t id = hashes_.items()[at];
            if (id == kUnknown) return kUnknown;
            if (is(id, message)) return id;
        }
    }

    // Puts a message behind the others. It answers false where there is no room for it.
    bool add(const Message &message) {
        const std::size_t begin = text_.count();
        if (count() == kMessages || is_bad_) return false;
        if (write(message) && text_.count() <= kMostBytes && lines_.add(begin)) {
            if (enter(count() - 1)) return true;
            lines_.keep(lines_.count() - 1);
        }
        text_.keep(begin);
        return false;
    }

    // The number of a message, which stands for its whole line.
    std::uint64_t number(std::uint32_t id) const {
        std::uint64_t high = 1, low = 1;
        for (const char *at = line(id); at != end_of(id); at++) {
            const auto byte = static_cast<unsigned char>(*at);
            high = (high * 1048573 + byte) % 2147483647;
            low = (low * 1000003 + byte) % 2147483629;
        }
        return high << 32 | low;
    }

    // Reads the format of a message.
    Format format(std::uint32_t id) const {
        char bytes[kMaxFormat + 1];
        return read_format(bytes, spell(parts_of(id).format, bytes, sizeof bytes));
    }

    // Spells a message out, and answers its line.
    std::uint32_t spell(std::uint32_t id, char *file, std::size_t file_room, char *format,
                        std::size_t format_room) const {
        const Parts parts = parts_of(id);
        spell(parts.file, file, file_room);
        spell(parts.format, format, format_room);
        return static_cast<std::uint32_t>(parts.line);
    }

    const std::uint8_t *bytes() const { return reinterpret_cast<const std::uint8_t *>(text_.items()); }
    std::size_t len() const { return text_.count(); }
    std::uint32_t count() const { return static_cast<std::uint32_t>(lines_.count()); }

   private:
    static constexpr std::size_t kMostBytes = 1 << 26;

    struct Parts {
        unsigned severity;
        std::uint64_t line;
        SpelledText file, format;
    };

    // Spells a text out, with a NUL behind it, and answers its length.
    static std::size_t spell(SpelledText text, char *bytes, std::size_t room) {
        std::size_t len = 0;
        for (int byte = text.next(); byte >= 0 && len + 1 < room; byte = text.next()) {
            bytes[len++] = static_cast<char>(byte);
        }
        bytes[len] = 0;
        return len;
    }

    // ---- the file

    int read(const char *name) {
        std::FILE *const file = std::fopen(name, "re");
        if (file == nullptr) return errno;
        int error = 0;
        for (std::size_t count = 1; count != 0 && error == 0; text_.keep(text_.count() + count)) {
            if (!text_.reserve(text_.count() + kPiece)) error = ENOMEM;
            if (text_.count() > kMostBytes) error = EFBIG;
            errno = 0;
            count = error == 0 ? std::fread(text_.items() + text_.count(), 1, kPiece, file) : 0;
            if (std::ferror(file)) error = errno;
        }
        std::fclose(file);
        return error;
    }

    // Finds the lines of the messages. A text that isn't whole is left to be refused, and nothing is put behind it.
    bool index() {
        const char *const begin = text_.items(), *const end = begin + text_.count();
        const char *at = behind(begin, end, '\n');
        while (at != end && count() < kMessages) {
            if (!lines_.add(static_cast<std::size_t>(at - begin))) return false;
            at = behind(at, end, '\n');
        }
        is_bad_ = at != end || text_.count() == 0 || end[-1] != '\n';
        return enter_all();
    }

    // What stands behind the next such byte, or the end.
    static const char *behind(const char *at, const char *end, char wanted) {
        const void *const found = at != end ? std::memchr(at, wanted, static_cast<std::size_t>(end - at)) : nullptr;
        return found != nullptr ? static_cast<const char *>(found) + 1 : end;
    }

    // ---- lines

    const char *line(std::uint32_t id) const { return text_.items() + lines_.items()[id]; }

    // Its line feed, or the end.
    const char *end_of(std::uint32_t id) const {
        const char *const end = text_.items() + text_.count();
        const char *const next = behind(line(id), end, '\n');
        return next[-1] == '\n' ? next - 1 : next;
    }

    // message ID SEVERITY LINE "FILE" "FORMAT"
    Parts parts_of(std::uint32_t id) const {
        const char *const end = end_of(id);
        const char *const severity = behind(behind(line(id), end, ' '), end, ' ');
        const char *at = behind(severity, end, ' ');
        std::uint64_t number = 0;
        for (; at != end && *at >= '0' && *at <= '9'; at++) number = 10 * number + static_cast<unsigned>(*at - '0');
        const char *const file = behind(at, end, '"');
        SpelledText found(file, end);
        while (found.next() >= 0) {
        }
        return {severity_at(severity, end), number, SpelledText(file, end),
                SpelledText(behind(found.behind(), end, '"'), end)};
    }

    static unsigned severity_at(const char *at, const char *end) {
        constexpr char first[] = "EWND";
        for (unsigned number = 1; at != end && number <= 4; number++) {
            if (first[number - 1] == *at) return number;
        }
        return 0;
    }

    bool write(const Message &message) {
        const char *const names[] = {"ERROR", "WARNING", "NOTICE", "DEBUG"};
        char front[64];
        const int len = std::snprintf(front, sizeof front, "message %lu %s %lu ", static_cast<unsigned long>(count()),
                                      names[message.severity - 1], static_cast<unsigned long>(message.line));
        return text_.add(front, static_cast<std::size_t>(len)) && write_text(message.file) && text_.add(' ') &&
               write_text(message.format) && text_.add('\n');
    }

    bool write_text(const char *text) {
        constexpr char digits[] = "0123456789abcdef";
        bool is_written = text_.add('"');
        for (; is_written && *text != 0; text++) {
            const auto byte = static_cast<unsigned char>(*text);
            const bool is_plain = byte >= 0x20 && byte <= 0x7e;
            const char named = byte == '\n' ? 'n' : byte == '\t' ? 't' : byte == '"' || byte == '\\' ? *text : '\0';
            const char spelled[] = {'\\', 'x', digits[byte >> 4], digits[byte & 15]}, escape[] = {'\\', named};
            is_written = named != 0 ? text_.add(escape, 2) : is_plain ? text_.add(*text) : text_.add(spelled, 4);
        }
        return is_written && text_.add('"');
    }

    // ---- finding

    static std::uint64_t hash_of(unsigned severity, std::uint64_t line, SpelledText file, SpelledText format) {
        std::uint64_t hash = 0xcbf29ce484222325 ^ (line << 3 | severity);
        for (SpelledText *const text : {&file, &format}) {
            for (int byte = 0; byte >= 0;) {
                byte = text->next();
                hash = (hash ^ static_cast<unsigned>(byte + 1)) * 0x100000001b3;
            }
        }
        return hash ^ hash >> 32;
    }

    static bool is_same(SpelledText one, SpelledText other) {
        for (;;) {
            const int byte = one.next();
            if (byte != other.next()) return false;
            if (byte < 0) return true;
        }
    }

    bool is(std::uint32_t id, const Message &message) const {
        const Parts parts = parts_of(id);
        return parts.severity == message.severity && parts.line == message.line &&
               is_same(parts.file, SpelledText(message.file)) && is_same(parts.format, SpelledText(message.format));
    }

    std::size_t mask() const { return hashes_.count() - 1; }

    // Enters a message into the table, which has room for twice as many.
    bool enter(std::uint32_t id) {
        if (2 * std::size_t{count()} > hashes_.count()) return enter_all();
        const Parts parts = parts_of(id);
        std::size_t at = hash_of(parts.severity, parts.line, parts.file, parts.format) & mask();
        while (hashes_.items()[at] != kUnknown) at = (at + 1) & mask();
        hashes_.items()[at] = id;
        return true;
    }

    bool enter_all() {
        if (!hashes_.reserve(4 * std::size_t{count()} + 1)) return false;
        hashes_.keep(hashes_.room());
        for (std::size_t at = 0; at < hashes_.count(); at++) hashes_.items()[at] = kUnknown;
        for (std::uint32_t id = 0; id < count(); id++) enter(id);
        return true;
    }

    static constexpr std::size_t kPiece = 1 << 16;

    Pile<char> text_;
    Pile<std::size_t> lines_;     // where each message begins
    Pile<std::uint32_t> hashes_;  // ids by what their messages say; as many as a power of two
    bool is_bad_ = false;
};

}  // namespace detail
}  // namespace version_1
}  // namespace nanolog
