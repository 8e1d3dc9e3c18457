/* Prints the lines of the log of a made-up run: print_log LOG. It reads the file whole, and unpacks each record when
   its turn comes, by stamp and then writer. It checks nothing. */
#include "../packing.h"

#include "lines.h"

enum { HEADER = 30, EXTENTS = 1 << 16 };

/* What is left of a writer's extents, and its next call. */
struct cursor {
    const unsigned char *at, *end;
    const unsigned char **extents;
    size_t next, count;
    struct call call;
};

static struct cursor cursors[WRITERS];
static unsigned writer_count;
static unsigned long long tick;

static unsigned long long load(const unsigned char **at, size_t size) {
    unsigned long long number = 0;
    for (size_t place = 0; place < size; place++) number |= (unsigned long long)(*at)[place] << 8 * place;
    *at += size;
    return number;
}

static long long load_signed(const unsigned char **at, unsigned code) {
    if (code == 8) return (long long)load(at, 8);
    return code < 8 ? (long long)load(at, code) : -1 - (long long)load(at, code - 9);
}

/* Reads the messages' formats, and answers where the fragment ends. */
static const unsigned char *read_fragment(const unsigned char *at) {
    at += 5;
    for (unsigned long long left = load(&at, 2); left; left--) {
        at += 5;
        at += load(&at, 2);
        size_t length = load(&at, 2);
        read_kinds((const char *)at, length, kinds[messages++]);
        at += length;
    }
    return at;
}

/* Reads the next record of a writer, if there is one. */
static int take_record(unsigned writer) {
    struct cursor *cursor = &cursors[writer];
    if (cursor->at == cursor->end) {
        if (cursor->next == cursor->count) return 0;
        const unsigned char *extent = cursor->extents[cursor->next++] + 2;
        size_t length = load(&extent, 4);
        cursor->at = extent;
        cursor->end = extent + length;
        cursor->call.stamp = tick;
    }
    unsigned codes = *cursor->at++;
    cursor->call.id = (unsigned)load(&cursor->at, codes & 15);
    cursor->call.stamp += load(&cursor->at, codes >> 4);

    const char *kind = kinds[cursor->call.id];
    size_t count = strlen(kind);
    const unsigned char *code = cursor->at;
    unsigned long long numbers[ARGUMENTS] = {0};
    cursor->at += (count + 1) / 2;
    for (size_t at = 0; at < count; at++) {
        unsigned own = code[at / 2] >> (at % 2 ? 4 : 0) & 15;
        numbers[at] = kind[at] == 's' ? (unsigned long long)load_signed(&cursor->at, own) : load(&cursor->at, own);
    }
    for (size_t at = 0; at < count; at++) {
        if (kind[at] != 't') continue;
        size_t length = numbers[at];
        numbers[at] = (unsigned long long)(cursor->at[1] - '0');
        cursor->at += length;
    }
    cursor->call.first = (unsigned)numbers[0];
    cursor->call.second = numbers[1];
    return 1;
}

/* Finds the extents of each writer. */
static int read_log(const char *name) {
    FILE *file = fopen(name, "rb");
    if (!file || fseek(file, 0, SEEK_END)) return 0;
    size_t size = (size_t)ftell(file);
    unsigned char *log = malloc(size);
    rewind(file);
    if (!log || fread(log, 1, size, file) != size) return 0;
    const unsigned char *at = log + 6;
    writer_count = log[5];
    tick = load(&at, 8);
    for (at = log + HEADER; at != log + size;) {
        if (*at == 1) {
            at = read_fragment(at);
        } else if (*at == 4) {
            at += 2;
        } else {
            struct cursor *cursor = &cursors[at[1]];
            if (!cursor->extents) cursor->extents = malloc(EXTENTS * sizeof *cursor->extents);
            if (!cursor->extents || cursor->count == EXTENTS) return 0;
            cursor->extents[cursor->count++] = at;
            at += 2;
            size_t length = load(&at, 4);
            at += length;
        }
    }
    return fclose(file) == 0;
}

int main(int count, char **words) {
    if (count != 2 || !read_log(words[1])) return 1;
    int left[WRITERS];
    for (unsigned writer = 0; writer < writer_count; writer++) {
        cursors[writer].call.writer = writer;
        left[writer] = take_record(writer);
    }
    for (;;) {
        struct cursor *first = 0;
        for (unsigned writer = 0; writer < writer_count; writer++) {
            if (left[writer] && (!first || cursors[writer].call.stamp < first->call.stamp)) first = &cursors[writer];
        }
        if (!first) break;
        print_line(&first->call);
        left[first->call.writer] = take_record(first->call.writer);
    }
    flush_lines();
    return fflush(stdout) != 0;
}
