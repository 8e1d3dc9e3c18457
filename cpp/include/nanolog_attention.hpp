// What there is to do beside a call: to print it, to flush, and to wake the consumer. It is part of nanolog.hpp.
#pragma once

#include <cerrno>
#include <cstddef>
#include <cstdint>
#include <cstring>

#include "nanolog_ends.hpp"
#include "nanolog_printing.hpp"
#include "nanolog_statement.hpp"

namespace nanolog {
inline namespace version_1 {
namespace detail {

// What a session knows of a statement whose text isn't in the program.
struct Told {
    char file[256];
    char format[4096];
    std::uint32_t line;
    std::uint16_t limits[NANOLOG_MAX_ARGUMENTS];
};

inline bool find_told(Site &site, Told &told) {
    const Lock lock(hub.mutex);
    if (hub.session == nullptr || !find_entry(site)) return false;
    const Entry *const entry = entry_of(site);
    const std::uint32_t id = entry != nullptr ? entry->id.load() : kUnresolved;
    if (id >= kMessages) return false;
    std::memcpy(told.limits, entry->limits, site.message.count * sizeof *told.limits);
    told.line = hub.directory->dictionary.spell(id, told.file, sizeof told.file, told.format, sizeof told.format);
    return true;
}

// A signal handler that finds this here may have interrupted an allocation, and does without what takes one.
class Allocating {
   public:
    Allocating() { locks++; }
    ~Allocating() { locks--; }
    Allocating(const Allocating &) = delete;
    Allocating &operator=(const Allocating &) = delete;
};

// Prints the line of a call, with the texts that it has in the log. What the call is made of stays as it is.
inline void echo(const Call &call) {
    const Allocating allocating;
    nanolog_arg args[NANOLOG_MAX_ARGUMENTS];
    if (call.count != 0) std::memcpy(args, call.args, call.count * sizeof *args);
    Call copy{call.site, args, call.kinds, call.count, call.measure, 0};
    if (call.site.message.format != nullptr) return print_call(copy);
    Told told;
    if (!find_told(call.site, told)) return;
    std::uint8_t room[kCutRoom];
    measure_texts(args, call.kinds, call.count, told.limits);
    cut_texts(args, call.count, room);
    Message message = call.site.message;
    message.file = told.file;
    message.format = told.format;
    message.line = told.line;
    print_line(message, call.kinds, args);
}

// The consumer sleeps long: it is woken where this thread has logged half a ring since it last looked.
inline void watch_ring(Core &core, const Call &call, std::uint32_t doze) {
    if (mine.doze != doze) {
        mine.doze = doze;
        mine.words = 0;
    }
    mine.words += words_of(call.args, call.count, NANOLOG_MAX_TEXT);
    if (2 * mine.words >= core.ring) core.consumer.hurry();
}

// Makes a call that asks for more, or while the consumer sleeps long.
[[gnu::noinline, gnu::cold]] inline void make_attended(Call &call, std::uint32_t attention) {
    Core *const core = hub.core.load();
    if (core == nullptr) return make_plainly(call);
    const std::uint32_t doze = attention / Hub::kDoze;
    const bool is_asked = call.site.message.severity <= attention % Hub::kDoze;
    const auto severity = static_cast<Severity>(call.site.message.severity);
    const int error = errno;
    if (is_asked && severity <= core->echo) echo(call);
    make_plainly(call);
    if (is_asked && severity <= core->flush_at) {
        flush(*core, core->limit);
    } else if (doze != 0) {
        watch_ring(*core, call, doze);
    }
    errno = error;
}

}  // namespace detail
}  // namespace version_1
}  // namespace nanolog
