// What a session has for each statement. It is part of nanolog.hpp.
#pragma once

#include <pthread.h>

#include <cstddef>
#include <cstdint>
#include <cstdio>
#include <cstdlib>
#include <cstring>
#include <new>

#include "nanolog.h"
#include "nanolog_dictionary.hpp"
#include "nanolog_hub.hpp"
#include "nanolog_registry.hpp"
#include "nanolog_report.hpp"
#include "nanolog_waiting.hpp"

namespace nanolog {
inline namespace version_1 {
namespace detail {

// The limits of texts without a precision.
struct OpenLimits {
    constexpr OpenLimits() {
        for (std::uint16_t &limit : limits) limit = kOpen;
    }
    std::uint16_t limits[NANOLOG_MAX_ARGUMENTS] = {};
};
inline constexpr OpenLimits open_limits;

// The dictionary of a session, and an entry for each place of the registry. Who changes it has the hub's mutex.
class Directory {
   public:
    Directory() = default;
    ~Directory() {
        forget();
        pthread_mutex_destroy(&mutex_);
    }
    Directory(const Directory &) = delete;
    Directory &operator=(const Directory &) = delete;

    Dictionary dictionary;

    // Puts the messages of all statements that are registered into the dictionary, as far as they have room.
    void take_in() {
        const Lock lock(registry.mutex);
        for (; taken_ < registry.count; taken_++) {
            const Registry::Place &place = registry.places[taken_];
            if (place.message == nullptr || place.is_left || place.message->format == nullptr) continue;
            if (dictionary.find(*place.message) == kUnknown) dictionary.add(*place.message);
        }
    }

    // Whether statements were registered since.
    bool has_grown() const {
        const Lock lock(registry.mutex);
        return taken_ != registry.count;
    }

    // Makes the entries anew, for a C session that was opened with so many messages. No call reads them meanwhile. It
    // answers false where there is no memory; then they are as before.
    bool make_entries(void **session, std::uint32_t messages) {
        const Lock lock(registry.mutex);
        const std::uint32_t places = registry.count + kSpare;
        void *const memory = std::malloc(places * sizeof(Entry));
        if (memory == nullptr) return false;
        forget();
        places_ = places;
        messages_ = messages;
        entries_ = static_cast<Entry *>(memory);
        for (std::uint32_t place = 0; place < places; place++) new (entries_ + place) Entry{{kUnresolved}, nullptr};
        for (std::uint32_t place = 1; place <= registry.count; place++) resolve(session, place);
        return true;
    }

    // Finds what there is for the statement of a place that has an entry.
    void resolve_late(void **session, std::uint32_t place) {
        const Lock lock(registry.mutex);
        if (entries_[place].id.load() == kUnresolved) resolve(session, place);
    }

    // Whether the session has the message of a statement.
    bool has(const Message &message) const { return message.format == nullptr || dictionary.find(message) < messages_; }

    const Entry *entries() const { return entries_; }
    std::uint32_t places() const { return places_; }
    std::uint32_t messages() const { return messages_; }

    // ---- the files whose statements were numbered by another dictionary

    // A signal handler may have interrupted its thread in one of these two. It gives up after a moment, and does without.
    void count_stale(const char *file) {
        const TimedLock lock(mutex_, time_after(kMoment));
        if (!lock.is_had()) return;
        std::uint32_t at = 0;
        while (at < units_ && std::strcmp(unit_[at].file, file) != 0) at++;
        if (at == Report::kMostUnits) return;
        if (at == units_) std::snprintf(unit_[units_++].file, sizeof unit_[at].file, "%s", file);
        unit_[at].calls++;
    }

    void copy_units(Report &report) const {
        const TimedLock lock(mutex_, time_after(kMoment));
        if (!lock.is_had()) return;
        report.units = units_;
        for (std::uint32_t at = 0; at < units_; at++) report.unit[at] = unit_[at];
    }

   private:
    // So many statements that come later have an entry at once.
    static constexpr std::uint32_t kSpare = 1024;
    static constexpr std::uint64_t kMoment = kSecond / 10;

    // Both mutexes are had.
    void resolve(void **session, std::uint32_t place) {
        const Message *const message = registry.places[place - 1].message;
        Entry &entry = entries_[place];
        if (message == nullptr) return entry.id.store(kUnknown, std::memory_order_release);
        std::uint32_t id = message->id;
        if (message->format != nullptr) {
            id = dictionary.find(*message);
            if (id >= messages_) id = kUnknown;
        } else if (id >= messages_ || dictionary.number(id) != message->number) {
            id = kStale;
        }
        if (id < kMessages && !find_limits(session, id, *message, entry)) id = kUnknown;
        entry.id.store(id, std::memory_order_release);
    }

    // The session knows how many bytes of a text are printed, and the format whether it has a precision at all.
    bool find_limits(void **session, std::uint32_t id, const Message &message, Entry &entry) const {
        std::uint16_t limits[NANOLOG_MAX_ARGUMENTS];
        std::memcpy(limits, open_limits.limits, sizeof limits);
        const Format format = dictionary.format(id);
        for (std::uint32_t nth = 0; nth < message.count; nth++) {
            if (letter_in(message.kinds[nth]) != 's') continue;
            const std::int32_t limit = nanolog_text_limit(session, id, nth);
            const bool is_open = limit == NANOLOG_MAX_TEXT && most_in(format.kinds[nth]) == kOpen;
            limits[nth] = is_open ? std::uint16_t{kOpen} : static_cast<std::uint16_t>(limit > 0 ? limit : 0);
        }
        entry.limits = open_limits.limits;
        if (std::memcmp(limits, open_limits.limits, sizeof limits) == 0) return true;
        void *const memory = std::malloc(message.count * sizeof *limits);
        if (memory == nullptr) return false;
        entry.limits = static_cast<const std::uint16_t *>(std::memcpy(memory, limits, message.count * sizeof *limits));
        return true;
    }

    void forget() {
        for (std::uint32_t place = 0; place < places_; place++) {
            const std::uint16_t *const limits = entries_[place].limits;
            if (limits != open_limits.limits) std::free(const_cast<std::uint16_t *>(limits));
        }
        std::free(static_cast<void *>(entries_));
        entries_ = nullptr;
        places_ = 0;
    }

    Entry *entries_ = nullptr;
    std::uint32_t places_ = 0;
    std::uint32_t messages_ = 0;  // so many of the dictionary are the C session's
    std::uint32_t taken_ = 0;     // so many places of the registry were taken in

    mutable pthread_mutex_t mutex_ = PTHREAD_MUTEX_INITIALIZER;
    Report::Unit unit_[Report::kMostUnits];
    std::uint32_t units_ = 0;
};

}  // namespace detail
}  // namespace version_1
}  // namespace nanolog
