/* Changes each byte of a log, and compares what `nanolog decompress` says of it with what the rules of a log say:

       cc -O2 -o damage damage.c && ./damage PROGRAM LOG

   Each byte is set to 0, 1, 127, 128 and 255, and to its value with one bit changed. The rules are those of
   docs/traces-and-logs.md, read from left to right, in a program of its own. It prints a line for each change: the
   offset, the value, and the offset and the cause of the damage, or `whole`; and behind `!` what the program said, where
   that is something else. It ends with status 1 then. */
#include <fcntl.h>
#include <stdint.h>
#include <stdio.h>
#include <stdlib.h>
#include <string.h>
#include <sys/wait.h>
#include <unistd.h>

enum {
    MAX_FILE = 4096, MESSAGES = 64, WRITERS = 1024, CLOCKS = 256, ARGUMENTS = 64, MAX_TEXT = 4000, MAX_SIZE = 4095,
    FRAME = 512
};

enum cause {
    WHOLE, BAD_MAGIC, BAD_VERSION, BAD_HEADER, CUT, BAD_BLOCK, FRAGMENT_ORDER, BAD_ENTRY, UNKNOWN_WRITER, AFTER_CLOSE,
    BAD_LENGTH, RECORD_CUT, UNKNOWN_ID, BAD_NIBBLE, NOT_SHORTEST, STAMP_RANGE, STAMP_FALLS, ARG_RANGE, NUL_IN_TEXT,
    TOO_LONG, TOO_LARGE, CLOCK_ORDER, CLOCK_LATE, BAD_RATE, CLOCK_COUNT
};

static const char *const names[] = {
    "whole", "BadMagic", "BadVersion", "BadHeader", "Cut", "BadBlock", "FragmentOrder", "BadEntry", "UnknownWriter",
    "AfterClose", "BadLength", "RecordCut", "UnknownId", "BadNibble", "NotShortest", "StampRange", "StampFalls",
    "ArgRange", "NulInText", "TooLong", "TooLarge", "ClockOrder", "ClockLate", "BadRate", "ClockCount",
};

enum type { INT, UINT, LONG, ULONG, WIDTH, PRECISION, TEXT };

struct message {
    const unsigned char *entry;
    size_t length;
    enum type types[ARGUMENTS];
    int count;
};

/* What stands in front of the block that is read. `tick` is the header's, and `greatest` the greatest stamp of all. */
static struct message messages[MESSAGES];
static unsigned message_count, writer_count, clock_count;
static uint64_t version, tick, last_tick, greatest, last[WRITERS];
static char closed[WRITERS];

/* What goes by the version: the bytes of a writer, and the most writers and the longest body. */
static int writer_bytes(void) { return version == 1 ? 1 : 2; }
static unsigned most_writers(void) { return version == 1 ? 64 : WRITERS; }
static unsigned longest_body(void) { return version == 1 ? 65536 : 1048576; }

/* The bytes that are read, and where. */
struct cursor {
    const unsigned char *at, *end;
};

/* The number of so many bytes, the lowest first; it answers whether they are there. */
static int take(struct cursor *from, int count, uint64_t *number) {
    if (from->end - from->at < count) return 0;
    *number = 0;
    for (int place = 0; place < count; place++) *number |= (uint64_t)from->at[place] << 8 * place;
    from->at += count;
    return 1;
}

/* ---- formats */

static int add_type(struct message *message, enum type type) {
    if (message->count == ARGUMENTS) return 0;
    message->types[message->count++] = type;
    return 1;
}

/* A width or a precision, which is a star or a number. */
static int take_size(struct cursor *from, struct message *message, enum type star) {
    if (from->at < from->end && *from->at == '*') {
        from->at++;
        return add_type(message, star);
    }
    unsigned size = 0;
    for (; from->at < from->end && *from->at >= '0' && *from->at <= '9'; from->at++) {
        size = 10 * size + (unsigned)(*from->at - '0');
        if (size > MAX_SIZE) return 0;
    }
    return 1;
}

static int take_field(struct cursor *from, struct message *message) {
    while (from->at < from->end && *from->at && strchr("-+ #0", *from->at)) from->at++;
    if (!take_size(from, message, WIDTH)) return 0;
    if (from->at < from->end && *from->at == '.') {
        from->at++;
        if (!take_size(from, message, PRECISION)) return 0;
    }
    char length = 0;
    if (from->at < from->end && *from->at && strchr("hljzt", *from->at)) {
        length = (char)*from->at++;
        if ((length == 'h' || length == 'l') && from->at < from->end && *from->at == length) from->at++;
    }
    if (from->at == from->end) return 0;
    int is_long = length && length != 'h';
    switch (*from->at++) {
    case 'd': case 'i': return add_type(message, is_long ? LONG : INT);
    case 'o': case 'u': case 'x': case 'X': return add_type(message, is_long ? ULONG : UINT);
    case 'c': return !length && add_type(message, INT);
    case 's': return !length && add_type(message, TEXT);
    case 'p': return !length && add_type(message, ULONG);
    default: return 0;
    }
}

/* What the format takes; it answers whether it is one. */
static int read_format(struct cursor from, struct message *message) {
    message->count = 0;
    while (from.at < from.end) {
        unsigned char byte = *from.at++;
        if (!byte) return 0;
        if (byte != '%') continue;
        if (from.at < from.end && *from.at == '%') from.at++;
        else if (!take_field(&from, message)) return 0;
    }
    return 1;
}

/* ---- records */

static int is_signed(enum type type) { return type != UINT && type != ULONG && type != TEXT; }

/* The number of a code, which is one of the kind. */
static enum cause take_packed(struct cursor *from, int is_signed_one, unsigned code, uint64_t *number) {
    unsigned count = is_signed_one && code > 8 ? code - 9 : code;
    if (!take(from, (int)count, number)) return RECORD_CUT;
    if (is_signed_one && code == 8) {
        int64_t value = (int64_t)*number;
        return value < -((int64_t)1 << 48) || value >= (int64_t)1 << 56 ? WHOLE : NOT_SHORTEST;
    }
    if (count && !(*number >> 8 * (count - 1))) return NOT_SHORTEST;
    if (is_signed_one && code > 8) *number = ~*number;
    return WHOLE;
}

static int is_in_range(enum type type, uint64_t number) {
    int64_t value = (int64_t)number;
    switch (type) {
    case INT: return value >= INT32_MIN && value <= INT32_MAX;
    case UINT: return number <= UINT32_MAX;
    case WIDTH: return value >= -MAX_SIZE && value <= MAX_SIZE;
    case PRECISION: return value >= INT32_MIN && value <= MAX_SIZE;
    case TEXT: return number <= MAX_TEXT;
    default: return 1;
    }
}

static enum cause take_codes(struct cursor *from, const struct message *message, unsigned *codes) {
    int bytes = (message->count + 1) / 2;
    if (from->end - from->at < bytes) return RECORD_CUT;
    for (int place = 0; place < 2 * bytes; place++) {
        unsigned code = place % 2 ? from->at[place / 2] >> 4 : from->at[place / 2] & 15;
        if (place == message->count ? code != 0 : !is_signed(message->types[place]) && code > 8) return BAD_NIBBLE;
        if (place < message->count) codes[place] = code;
    }
    from->at += bytes;
    return WHOLE;
}

static enum cause take_arguments(struct cursor *from, const struct message *message) {
    unsigned codes[ARGUMENTS];
    uint64_t lengths[ARGUMENTS], words = 2;
    enum cause cause = take_codes(from, message, codes);
    for (int place = 0; !cause && place < message->count; place++) {
        enum type type = message->types[place];
        cause = take_packed(from, is_signed(type), codes[place], &lengths[place]);
        if (!cause && !is_in_range(type, lengths[place])) cause = ARG_RANGE;
        words += type == TEXT ? 1 + (lengths[place] + 7) / 8 : 1;
    }
    if (cause) return cause;
    if (words > FRAME) return TOO_LONG;
    for (int place = 0; place < message->count; place++) {
        if (message->types[place] != TEXT) continue;
        if ((uint64_t)(from->end - from->at) < lengths[place]) return RECORD_CUT;
        if (memchr(from->at, 0, lengths[place])) return NUL_IN_TEXT;
        from->at += lengths[place];
    }
    return WHOLE;
}

static enum cause take_record(struct cursor *from, uint64_t *before, uint64_t *least) {
    unsigned codes = *from->at++;
    if ((codes & 15) > 8 || codes >> 4 > 8) return BAD_NIBBLE;
    uint64_t id, step;
    enum cause cause = take_packed(from, 0, codes & 15, &id);
    if (cause) return cause;
    if (id >= message_count) return UNKNOWN_ID;
    cause = take_packed(from, 0, codes >> 4, &step);
    if (cause) return cause;
    if (step > UINT64_MAX - *before) return STAMP_RANGE;
    if (*before + step < *least) return STAMP_FALLS;
    *before = *least = *before + step;
    return take_arguments(from, &messages[id]);
}

/* ---- blocks */

static enum cause take_entry(struct cursor *from, struct message *message) {
    uint64_t severity, line, length;
    message->entry = from->at;
    if (!take(from, 1, &severity)) return CUT;
    if (severity < 1 || severity > 4) return BAD_ENTRY;
    if (!take(from, 4, &line) || !take(from, 2, &length)) return CUT;
    if (length < 1 || length > 255) return BAD_ENTRY;
    if ((uint64_t)(from->end - from->at) < length) return CUT;
    from->at += length;
    if (!take(from, 2, &length)) return CUT;
    if (length > MAX_SIZE) return BAD_ENTRY;
    if ((uint64_t)(from->end - from->at) < length) return CUT;
    struct cursor format = {from->at, from->at + length};
    from->at += length;
    message->length = (size_t)(from->at - message->entry);
    if (!read_format(format, message)) return BAD_ENTRY;
    for (unsigned id = 0; id < message_count; id++) {
        if (messages[id].length == message->length && !memcmp(messages[id].entry, message->entry, message->length)) {
            return BAD_ENTRY;
        }
    }
    return WHOLE;
}

static enum cause take_fragment(struct cursor *from) {
    uint64_t first, count;
    if (!take(from, 4, &first)) return CUT;
    if (first != message_count) return FRAGMENT_ORDER;
    if (!take(from, 2, &count)) return CUT;
    if (count < 1 || count > 16) return BAD_LENGTH;
    for (; count; count--) {
        if (message_count == MESSAGES) exit(2);
        enum cause cause = take_entry(from, &messages[message_count]);
        if (cause) return cause;
        message_count++;
    }
    return WHOLE;
}

static enum cause take_writer(struct cursor *from, uint64_t *writer) {
    if (!take(from, writer_bytes(), writer)) return CUT;
    if (*writer >= writer_count) return UNKNOWN_WRITER;
    return closed[*writer] ? AFTER_CLOSE : WHOLE;
}

static enum cause take_extent(struct cursor *from) {
    uint64_t writer, length, before = tick;
    enum cause cause = take_writer(from, &writer);
    if (cause) return cause;
    if (!take(from, 4, &length)) return CUT;
    if (length < 1 || length > longest_body()) return BAD_LENGTH;
    if ((uint64_t)(from->end - from->at) < length) return CUT;
    struct cursor body = {from->at, from->at + length};
    from->at += length;
    while (!cause && body.at < body.end) cause = take_record(&body, &before, &last[writer]);
    if (last[writer] > greatest) greatest = last[writer];
    return cause;
}

static enum cause take_clock(struct cursor *from) {
    uint64_t from_tick, nanos, rate;
    if (clock_count == CLOCKS) return CLOCK_COUNT;
    if (!take(from, 8, &from_tick)) return CUT;
    if (from_tick <= last_tick) return CLOCK_ORDER;
    if (from_tick <= greatest) return CLOCK_LATE;
    if (!take(from, 8, &nanos) || !take(from, 8, &rate)) return CUT;
    if (!rate) return BAD_RATE;
    clock_count++;
    last_tick = from_tick;
    return WHOLE;
}

static enum cause take_block(struct cursor *from) {
    uint64_t writer;
    enum cause cause;
    switch (*from->at++) {
    case 1: return take_fragment(from);
    case 2: return take_extent(from);
    case 3: return version == 1 ? BAD_BLOCK : take_clock(from);
    case 4:
        cause = take_writer(from, &writer);
        if (!cause) closed[writer] = 1;
        return cause;
    default: return BAD_BLOCK;
    }
}

static enum cause take_header(struct cursor *from) {
    uint64_t count, nanos, rate;
    for (const char *magic = "NLOG"; *magic; magic++) {
        if (from->at == from->end) return CUT;
        if (*from->at++ != (unsigned char)*magic) return BAD_MAGIC;
    }
    if (!take(from, 1, &version)) return CUT;
    if (version != 1 && version != 2) return BAD_VERSION;
    if (!take(from, writer_bytes(), &count)) return CUT;
    if (count < 1 || count > most_writers()) return BAD_HEADER;
    writer_count = (unsigned)count;
    if (!take(from, 8, &tick) || !take(from, 8, &nanos) || !take(from, 8, &rate)) return CUT;
    last_tick = greatest = tick;
    clock_count = 1;
    return rate ? WHOLE : BAD_HEADER;
}

/* The cause by which a log breaks, and at which offset. */
static enum cause judge(const unsigned char *bytes, size_t size, size_t *offset) {
    struct cursor from = {bytes, bytes + size};
    *offset = 0;
    message_count = 0;
    memset(closed, 0, sizeof closed);
    enum cause cause = take_header(&from);
    for (int writer = 0; writer < WRITERS; writer++) last[writer] = tick;
    while (!cause && from.at < from.end) {
        *offset = (size_t)(from.at - bytes);
        cause = take_block(&from);
    }
    return cause;
}

/* ---- the program */

/* What the program says on standard error of a file, up to a line feed, and its status. */
static int run(const char *program, const char *file, char *said, size_t room) {
    int ends[2], status = -1;
    if (pipe(ends)) exit(2);
    pid_t child = fork();
    if (child == 0) {
        int nowhere = open("/dev/null", O_WRONLY);
        dup2(nowhere, 1);
        dup2(ends[1], 2);
        close(ends[0]);
        execl(program, program, "decompress", file, (char *)0);
        _exit(127);
    }
    close(ends[1]);
    size_t length = 0;
    for (ssize_t got; (got = read(ends[0], said + length, room - 1 - length)) > 0;) length += (size_t)got;
    close(ends[0]);
    said[length] = 0;
    said[strcspn(said, "\n")] = 0;
    waitpid(child, &status, 0);
    return WIFEXITED(status) ? WEXITSTATUS(status) : -1;
}

static int compare(const char *program, const unsigned char *bytes, size_t size, size_t at) {
    static const char file[] = "changed.log";
    char said[8192], wanted[256] = "";
    size_t offset;
    enum cause cause = judge(bytes, size, &offset);
    FILE *out = fopen(file, "wb");
    if (!out || fwrite(bytes, 1, size, out) != size || fclose(out)) exit(2);
    int status = run(program, file, said, sizeof said);
    if (cause) snprintf(wanted, sizeof wanted, "nanolog: %s:%zu: damaged: %d %s", file, offset, cause, names[cause]);
    int right = cause ? status == 3 && !strcmp(said, wanted) : status == 0 && !strstr(said, "damaged");
    printf("%zu %02x: ", at, bytes[at]);
    if (cause) printf("%zu %d %s", offset, cause, names[cause]);
    else printf("whole");
    printf(right ? "\n" : " ! %d %s\n", status, said);
    return right;
}

int main(int count, char **words) {
    static unsigned char bytes[MAX_FILE];
    static const int values[] = {0, 1, 127, 128, 255};
    if (count != 3) return 2;
    FILE *in = fopen(words[2], "rb");
    if (!in) return 2;
    size_t size = fread(bytes, 1, sizeof bytes, in);
    fclose(in);
    if (size == sizeof bytes) return 2;
    int wrong = 0;
    for (size_t at = 0; at < size; at++) {
        unsigned char was = bytes[at];
        for (int change = 0; change < 13; change++) {
            bytes[at] = (unsigned char)(change < 5 ? values[change] : was ^ 1 << (change - 5));
            wrong += !compare(words[1], bytes, size, at);
        }
        bytes[at] = was;
    }
    return wrong != 0;
}
