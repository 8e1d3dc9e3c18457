/* What the log of a trace is made of: its header, messages and records. It checks nothing, and takes at most 16
   messages and no escapes. */
#include <stdio.h>
#include <stdlib.h>
#include <string.h>

enum { MOST_MESSAGES = 16, ARGUMENTS = 64, WRITERS = 64, RECORDS = 4096, BODY = 65536, RECORD = 4123 };

/* The kinds of a message's arguments, one letter each: signed, unsigned or text. */
static char kinds[MOST_MESSAGES][ARGUMENTS + 1];
static unsigned char fragment[1 << 20];
static size_t fragment_length;
static unsigned messages;

/* An argument; of a text its length, and where it stands. */
struct argument {
    unsigned long long number;
    const char *text;
};

/* A number with its code and the bytes that it has in the log. */
struct packed {
    unsigned code;
    size_t size;
    unsigned long long bytes;
};

static unsigned char *store(unsigned char *at, unsigned long long number, size_t size) {
    for (; size--; number >>= 8) *at++ = (unsigned char)number;
    return at;
}

static void write_number(FILE *log, unsigned long long number, size_t size) {
    unsigned char bytes[8];
    fwrite(bytes, 1, (size_t)(store(bytes, number, size) - bytes), log);
}

static struct packed pack_unsigned(unsigned long long number) {
    size_t size = 0;
    while (size < 8 && number >> 8 * size) size++;
    return (struct packed){(unsigned)size, size, number};
}

static struct packed pack_signed(long long number) {
    struct packed packed = pack_unsigned(number < 0 ? ~(unsigned long long)number : (unsigned long long)number);
    if (packed.size > (number < 0 ? 6 : 7)) return (struct packed){8, 8, (unsigned long long)number};
    if (number < 0) packed.code += 9;
    return packed;
}

static void read_kinds(const char *format, size_t length, char *kind) {
    for (size_t at = 0; at < length; at++) {
        if (format[at] != '%') continue;
        for (at++; strchr("-+ #0123456789.*hljzt", format[at]); at++) {
            if (format[at] == '*') *kind++ = 's';
        }
        if (strchr("dic", format[at])) *kind++ = 's';
        if (strchr("ouxXp", format[at])) *kind++ = 'u';
        if (format[at] == 's') *kind++ = 't';
    }
}

/* Reads `message ID SEVERITY LINE "FILE" "FORMAT"`, which ends before `line_end`, and keeps the message as an entry. */
static void add_message(const char *line, const char *line_end) {
    static const char *const severities[] = {"ERROR", "WARNING", "NOTICE", "DEBUG"};
    char name[8];
    const char *file = strchr(line, '"') + 1, *file_end = strchr(file, '"'), *format = file_end + 3;
    unsigned long number, severity = 0;
    sscanf(line, "message %*u %7s %lu", name, &number);
    while (strcmp(name, severities[severity++])) {}
    size_t format_length = (size_t)(line_end - 1 - format);
    read_kinds(format, format_length, kinds[messages++]);

    unsigned char *at = fragment + fragment_length;
    at = store(at, severity, 1);
    at = store(at, number, 4);
    at = store(at, (unsigned long long)(file_end - file), 2);
    memcpy(at, file, (size_t)(file_end - file));
    at = store(at + (file_end - file), format_length, 2);
    memcpy(at, format, format_length);
    fragment_length = (size_t)(at - fragment) + format_length;
}

/* Reads the arguments of a call of the message, each behind a space, and answers where they end. */
static char *read_arguments(char *line, unsigned id, struct argument *arguments) {
    for (const char *kind = kinds[id]; *kind; kind++, arguments++) {
        if (*kind == 't') {
            arguments->text = line + 2;
            line = strchr(line + 2, '"') + 1;
            arguments->number = (unsigned long long)(line - 1 - arguments->text);
        } else if (*kind == 's') {
            arguments->number = (unsigned long long)strtoll(line, &line, 10);
        } else {
            arguments->number = strtoull(line, &line, 10);
        }
    }
    return line;
}

/* The version of the log; a writer's number has as many bytes. */
static unsigned version = 1;

/* Writes the header, and the fragment of all messages. */
static void write_front(FILE *log, unsigned writers, const unsigned long long clock[3]) {
    fwrite("NLOG", 1, 4, log);
    write_number(log, version, 1);
    write_number(log, writers, version);
    for (size_t at = 0; at < 3; at++) write_number(log, clock[at], 8);
    if (!messages) return;
    write_number(log, 1, 1);
    write_number(log, 0, 4);
    write_number(log, messages, 2);
    fwrite(fragment, 1, fragment_length, log);
}

static void write_extent(FILE *log, unsigned writer, const unsigned char *body, size_t length) {
    write_number(log, 2, 1);
    write_number(log, writer, version);
    write_number(log, length, 4);
    fwrite(body, 1, length, log);
}

static void write_mark(FILE *log, unsigned writer) {
    write_number(log, 4, 1);
    write_number(log, writer, version);
}

/* Writes the record of a call of the message, whose stamp is so many ticks behind the one in front. */
static unsigned char *put_record(unsigned char *out, unsigned id, unsigned long long ticks,
                                 const struct argument *arguments) {
    struct packed named = pack_unsigned(id), step = pack_unsigned(ticks), packed[ARGUMENTS];
    const char *kind = kinds[id];
    size_t count = strlen(kind);
    for (size_t at = 0; at < count; at++) {
        unsigned long long number = arguments[at].number;
        packed[at] = kind[at] == 's' ? pack_signed((long long)number) : pack_unsigned(number);
    }
    *out++ = (unsigned char)(step.code << 4 | named.code);
    out = store(out, named.bytes, named.size);
    out = store(out, step.bytes, step.size);
    for (size_t at = 0; at < count; at += 2) {
        *out++ = (unsigned char)((at + 1 < count ? packed[at + 1].code << 4 : 0) | packed[at].code);
    }
    for (size_t at = 0; at < count; at++) out = store(out, packed[at].bytes, packed[at].size);
    for (size_t at = 0; at < count; at++) {
        if (kind[at] != 't') continue;
        memcpy(out, arguments[at].text, arguments[at].number);
        out += arguments[at].number;
    }
    return out;
}

/* Packs a call's frame of words, whose stamp counts from `before`, and answers the end of its record. */
static unsigned char *pack_frame(const unsigned long long *words, unsigned long long before, unsigned char *out) {
    struct argument arguments[ARGUMENTS], *argument = arguments;
    unsigned id = (unsigned)(words[0] >> 16);
    const unsigned long long *word = words + 2;
    for (const char *kind = kinds[id]; *kind; kind++, argument++) {
        argument->number = *word++;
        argument->text = (const char *)word;
        if (*kind == 't') word += (argument->number + 7) / 8;
    }
    return put_record(out, id, words[1] - before, arguments);
}
