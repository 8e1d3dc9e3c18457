/* Logs the calls of a trace as a session does: replay TRACE LOG. Each writer makes its calls in a thread of its own and
   stages them in a ring of its own, and this thread packs them and writes the log. */
#include <pthread.h>
#include <sched.h>
#include <stdatomic.h>

#include "../packing.h"

enum { RING = 65536, FRAME = 512 };

/* With EXCHANGES the words of a ring go to memory as those of `nanolog replay` do: each store is an exchange, and a
   writer looks how much was taken before each call, and not only where it knows of no room. */
#ifdef EXCHANGES
enum { LOOKS_EACH_TIME = 1 };
#define STORE(place, word) atomic_exchange(place, word)
#define PUT(place, word) __atomic_exchange_n(place, word, __ATOMIC_SEQ_CST)
#else
enum { LOOKS_EACH_TIME = 0 };
#define STORE(place, word) atomic_store_explicit(place, word, memory_order_release)
#define PUT(place, word) (*(place) = (word))
#endif

struct call {
    unsigned long long stamp;
    size_t arguments;
    unsigned id;
};

/* The calls of a writer, and its ring. A frame is there whole once `put` has passed it. */
static struct writer {
    struct call *calls;
    struct argument *arguments;
    size_t call_count, call_room, argument_count, argument_room;
    unsigned long long *words;
    _Alignas(64) atomic_ullong put;
    _Alignas(64) atomic_ullong taken;
    _Alignas(64) atomic_bool closed;
} writers[WRITERS];
static unsigned writer_count;
static unsigned long long clock_numbers[3];

static void *grown(void *items, size_t count, size_t *room, size_t size) {
    if (count < *room) return items;
    *room = *room ? 2 * *room : 1024;
    return realloc(items, *room * size);
}

/* Reads `call WRITER STAMP ID` and the arguments, and answers where the line ends. */
static char *add_call(char *line) {
    struct writer *writer = &writers[strtoul(line + 5, &line, 10)];
    unsigned long long stamp = strtoull(line, &line, 10);
    unsigned id = (unsigned)strtoul(line, &line, 10);
    writer->calls = grown(writer->calls, writer->call_count, &writer->call_room, sizeof *writer->calls);
    writer->calls[writer->call_count++] = (struct call){stamp, writer->argument_count, id};
    struct argument arguments[ARGUMENTS];
    line = read_arguments(line, id, arguments);
    for (size_t at = 0; kinds[id][at]; at++) {
        writer->arguments =
            grown(writer->arguments, writer->argument_count, &writer->argument_room, sizeof *writer->arguments);
        writer->arguments[writer->argument_count++] = arguments[at];
    }
    return line;
}

static int read_trace(const char *name) {
    FILE *file = fopen(name, "rb");
    if (!file || fseek(file, 0, SEEK_END)) return 0;
    size_t size = (size_t)ftell(file);
    char *text = malloc(size + 1), *line = text;
    rewind(file);
    if (!text || fread(text, 1, size, file) != size) return 0;
    text[size] = 0;
    for (; *line && *line != 'e'; line = strchr(line, '\n') + 1) {
        if (*line == 'm') add_message(line, strchr(line, '\n'));
        if (*line == 'w') sscanf(line, "writers %u", &writer_count);
        if (*line != 'c') continue;
        if (line[1] == 'a') {
            line = add_call(line);
        } else {
            sscanf(line, "clock %llu %llu %llu", &clock_numbers[0], &clock_numbers[1], &clock_numbers[2]);
        }
    }
    return fclose(file) == 0;
}

/* The words of a call's frame, of which there are so many. */
static size_t make_frame(const struct call *call, const struct argument *argument, unsigned long long *words) {
    size_t length = 2;
    for (const char *kind = kinds[call->id]; *kind; kind++, argument++) {
        words[length++] = argument->number;
        if (*kind != 't' || !argument->number) continue;
        size_t count = (size_t)(argument->number + 7) / 8;
        words[length + count - 1] = 0;
        memcpy(&words[length], argument->text, (size_t)argument->number);
        length += count;
    }
    words[0] = (unsigned long long)call->id << 16 | length;
    words[1] = call->stamp;
    return length;
}

static void *make_calls(void *of) {
    struct writer *writer = of;
    unsigned long long frame[FRAME], put = 0, taken = 0;
    for (size_t at = 0; at < writer->call_count; at++) {
        const struct call *call = &writer->calls[at];
        size_t length = make_frame(call, &writer->arguments[call->arguments], frame);
        if (LOOKS_EACH_TIME) taken = atomic_load_explicit(&writer->taken, memory_order_acquire);
        while (put + length > taken + RING) {
            taken = atomic_load_explicit(&writer->taken, memory_order_acquire);
            if (put + length > taken + RING) sched_yield();
        }
        for (size_t word = 0; word < length; word++) PUT(&writer->words[(put + word) % RING], frame[word]);
        put += length;
        STORE(&writer->put, put);
    }
    atomic_store_explicit(&writer->closed, 1, memory_order_release);
    return 0;
}

/* Takes a batch of frames of a writer, and writes their extent. It answers how many there were. */
static unsigned visit(FILE *log, unsigned number) {
    static unsigned char body[BODY];
    struct writer *writer = &writers[number];
    unsigned long long frame[FRAME], taken = atomic_load_explicit(&writer->taken, memory_order_relaxed);
    unsigned long long put = atomic_load_explicit(&writer->put, memory_order_acquire), before = clock_numbers[0];
    unsigned char *out = body;
    unsigned records = 0;
    for (; taken != put && records < RECORDS && out + RECORD <= body + BODY; records++) {
        size_t length = writer->words[taken % RING] & 65535;
        for (size_t word = 0; word < length; word++) frame[word] = writer->words[(taken + word) % RING];
        taken += length;
        STORE(&writer->taken, taken);
        out = pack_frame(frame, before, out);
        before = frame[1];
    }
    if (records) write_extent(log, number, body, (size_t)(out - body));
    return records;
}

/* Goes round the writers until all have ended. */
static void consume(FILE *log) {
    unsigned open = writer_count;
    char marked[WRITERS] = {0};
    while (open) {
        unsigned moved = 0;
        for (unsigned number = 0; number < writer_count; number++) {
            /* Behind a writer that was closed before it was visited nothing comes. */
            int closed = atomic_load_explicit(&writers[number].closed, memory_order_acquire);
            unsigned records = visit(log, number);
            moved += records;
            if (records || !closed || marked[number]) continue;
            write_mark(log, number);
            marked[number] = 1;
            open--;
            moved++;
        }
        if (!moved) sched_yield();
    }
}

int main(int count, char **words) {
    if (count != 3 || !read_trace(words[1])) return 1;
    FILE *log = fopen(words[2], "wb");
    if (!log) return 1;
    write_front(log, writer_count, clock_numbers);
    pthread_t threads[WRITERS];
    for (unsigned number = 0; number < writer_count; number++) {
        writers[number].words = malloc(RING * sizeof *writers[number].words);
        if (!writers[number].words) return 1;
    }
    for (unsigned number = 0; number < writer_count; number++) {
        if (pthread_create(&threads[number], 0, make_calls, &writers[number])) return 1;
    }
    consume(log);
    for (unsigned number = 0; number < writer_count; number++) pthread_join(threads[number], 0);
    return fclose(log) != 0;
}
