// How a statement prints its line to standard error, where there never was a session. It is part of nanolog.hpp.
#pragma once

#include <atomic>
#include <cstddef>
#include <cstdint>
#include <cstdio>
#include <cstdlib>
#include <cstring>
#include <ctime>

#include "nanolog_hub.hpp"

namespace nanolog {
inline namespace version_1 {
namespace detail {

#pragma GCC diagnostic push
#pragma GCC diagnostic ignored "-Wformat-nonliteral"

// Prints a field, with a size for each `*` in it.
template <class Value>
void print_field(std::FILE *out, const char *field, const int *sizes, int stars, Value value) {
    if (stars == 0) std::fprintf(out, field, value);
    if (stars == 1) std::fprintf(out, field, sizes[0], value);
    if (stars == 2) std::fprintf(out, field, sizes[0], sizes[1], value);
}

#pragma GCC diagnostic pop

// Prints the field of a conversion that takes these arguments, and answers how many they are.
inline std::size_t print_argument(std::FILE *out, char *field, char *end, bool is_long, const Kind *kinds,
                                  const nanolog_arg *args) {
    int sizes[2] = {}, stars = 0;
    for (; letter_in(*kinds) == 'w' || letter_in(*kinds) == 'p'; kinds++) {
        sizes[stars++] = static_cast<int>((args++)->word);
    }
    const char conversion = *end;
    if (is_long) *end++ = 'l';
    *end = conversion;
    char text[NANOLOG_MAX_TEXT + 1] = "";
    if (letter_in(*kinds) == 's') {
        if (args->len != 0) std::memcpy(text, args->text, args->len);
        print_field(out, field, sizes, stars, static_cast<const char *>(text));
    } else if (conversion == 'p') {
        print_field(out, field, sizes, stars, reinterpret_cast<const void *>(args->word));
    } else if (is_long) {
        print_field(out, field, sizes, stars, static_cast<long>(args->word));
    } else {
        print_field(out, field, sizes, stars, static_cast<int>(args->word));
    }
    return static_cast<std::size_t>(stars) + 1;
}

// Prints the text of a format with its arguments.
inline void print_text(std::FILE *out, const char *format, const Kind *kinds, const nanolog_arg *args) {
    while (*format != 0) {
        const std::size_t plain = std::strcspn(format, "%");
        std::fwrite(format, 1, plain, out);
        format += plain;
        if (*format == 0) return;
        // The field is kept with each flag once, and without a length that makes its argument a long one.
        char field[32] = "%", *end = field + 1;
        bool is_long = false;
        for (format++; has("-+ #0", *format); format++) {
            if (!has(field, *format)) *end++ = *format;
        }
        for (; has("0123456789.*hljzt", *format); format++) {
            if (has("ljzt", *format)) {
                is_long = true;
            } else if (end < field + sizeof field - 3) {
                *end++ = *format;
            }
        }
        *end = *format++;
        if (*end == '%') {
            std::fputc('%', out);
            continue;
        }
        const std::size_t count = print_argument(out, field, end, is_long, kinds, args);
        kinds += count;
        args += count;
    }
}

// Threads go by the order in which they first print.
inline unsigned printing_thread() {
    if (mine.printing == 0) mine.printing = hub.printing_threads.fetch_add(1) + 1;
    return mine.printing - 1;
}

// Prints a line as `nanolog decompress` does, to standard error and in one piece; in several where memory is wanting.
inline void print_line(const Message &message, const Kind *kinds, const nanolog_arg *args) {
    const char *const names[] = {"ERROR", "WARNING", "NOTICE", "DEBUG"};
    timespec time{};
    clock_gettime(CLOCK_REALTIME, &time);
    char *text = nullptr;
    std::size_t len = 0;
    std::FILE *const memory = open_memstream(&text, &len);
    std::FILE *const out = memory != nullptr ? memory : stderr;
    std::fprintf(out, "%lld.%09ld %s:%u %s[%u]: ", static_cast<long long>(time.tv_sec), static_cast<long>(time.tv_nsec),
                 message.file, message.line, names[message.severity - 1], printing_thread());
    print_text(out, message.format, kinds, args);
    std::fputc('\n', out);
    if (memory == nullptr) return;
    std::fclose(memory);
    std::fwrite(text, 1, len, stderr);
    std::free(text);
}

// Prints the line of a call, with the texts that it would have in a log.
inline void print_call(Call &call) {
    const Message &message = call.site.message;
    if (message.format == nullptr) return count_sessionless();
    std::uint8_t room[kCutRoom];
    measure_texts(call.args, call.kinds, call.count, nullptr);
    cut_texts(call.args, call.count, room);
    print_line(message, call.kinds, call.args);
}

}  // namespace detail
}  // namespace version_1
}  // namespace nanolog
