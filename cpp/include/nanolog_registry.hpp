// The statements of a process. It is part of nanolog.hpp.
#pragma once

#include <pthread.h>

#include <atomic>
#include <cstddef>
#include <cstdint>
#include <cstdlib>
#include <cstring>

#include "nanolog_basics.hpp"
#include "nanolog_format.hpp"

namespace nanolog {
inline namespace version_1 {
namespace detail {

// What a statement says. One that was taken out of its source has no format, but the id of its message and a number for
// what its line in the dictionary says.
struct Message {
    const char *file;
    const char *format;
    const Kind *kinds;  // of its arguments
    std::uint64_t number;
    std::uint32_t id;
    std::uint32_t line;
    unsigned char severity;
    unsigned char count;  // of its arguments
};

// The static data of a statement: what it says, and its place in the registry, or 0 as long as it has none.
struct Site {
    constexpr explicit Site(const Message &said) : message(said) {}

    const Message message;
    std::atomic<std::uint32_t> place{0};
};

// Has a place for each statement. A place never stands for another message, also when the library of its statement is
// unloaded: it is kept for the same statement, should that come back.
struct Registry {
    struct Place {
        const Message *message;  // null where there was no memory to keep it
        bool is_left;            // no statement has it, and the message is a copy
    };

    // Guards it. What is taken meanwhile is memory alone.
    pthread_mutex_t mutex = PTHREAD_MUTEX_INITIALIZER;
    Place *places = nullptr;  // of which the first one has the number 1
    std::uint32_t count = 0;
    std::uint32_t room = 0;
    std::uint32_t left = 0;

    // Gives a statement its place, unless it has one, or there is no memory.
    void add(Site &site) {
        const Lock lock(mutex);
        if (site.place.load(std::memory_order_relaxed) != 0) return;
        std::uint32_t number = left != 0 ? find_left(site.message) : 0;
        if (number != 0) {
            std::free(const_cast<Message *>(places[number - 1].message));
            left--;
        } else if (count < room || grow()) {
            number = ++count;
        } else {
            return;
        }
        places[number - 1] = {&site.message, false};
        site.place.store(number, std::memory_order_release);
    }

    // Takes a statement out whose library is unloaded. Should it still be called meanwhile, its place is as good as
    // ever.
    void remove(const Site &site) {
        const Lock lock(mutex);
        const std::uint32_t number = site.place.load(std::memory_order_relaxed);
        if (number == 0 || places[number - 1].message != &site.message) return;
        const Message *const copy = copy_of(site.message);
        places[number - 1] = {copy, copy != nullptr};
        if (copy != nullptr) left++;
    }

   private:
    static constexpr std::uint32_t kLeastRoom = 64;
    static constexpr std::uint32_t kMostPlaces = 1u << 30;

    bool grow() {
        const std::uint32_t wanted = room != 0 ? 2 * room : kLeastRoom;
        if (wanted > kMostPlaces) return false;
        void *const more = std::realloc(places, wanted * sizeof *places);
        if (more == nullptr) return false;
        places = static_cast<Place *>(more);
        room = wanted;
        return true;
    }

    std::uint32_t find_left(const Message &message) const {
        for (std::uint32_t number = 1; number <= count; number++) {
            const Place &place = places[number - 1];
            if (place.is_left && is_same(*place.message, message)) return number;
        }
        return 0;
    }

    static bool is_same(const Message &one, const Message &other) {
        if (one.severity != other.severity || one.count != other.count) return false;
        if (one.line != other.line || one.id != other.id || one.number != other.number) return false;
        if (std::memcmp(one.kinds, other.kinds, one.count * sizeof *one.kinds) != 0) return false;
        if (std::strcmp(one.file, other.file) != 0) return false;
        if ((one.format == nullptr) != (other.format == nullptr)) return false;
        return one.format == nullptr || std::strcmp(one.format, other.format) == 0;
    }

    // A copy in one piece of memory, or null where there is none.
    static const Message *copy_of(const Message &message) {
        const std::size_t kinds = message.count * sizeof *message.kinds, file = std::strlen(message.file) + 1;
        const std::size_t format = message.format != nullptr ? std::strlen(message.format) + 1 : 0;
        char *const bytes = static_cast<char *>(std::malloc(sizeof message + kinds + file + format));
        if (bytes == nullptr) return nullptr;
        Message copy = message;
        char *at = bytes + sizeof message;
        copy.kinds = static_cast<const Kind *>(std::memcpy(at, message.kinds, kinds));
        copy.file = static_cast<const char *>(std::memcpy(at += kinds, message.file, file));
        if (format != 0) copy.format = static_cast<const char *>(std::memcpy(at + file, message.format, format));
        return static_cast<const Message *>(std::memcpy(bytes, &copy, sizeof copy));
    }
};

// There is one in a process: its libraries share it.
inline Registry registry [[gnu::visibility("default")]];

}  // namespace detail
}  // namespace version_1
}  // namespace nanolog
