/* usage: make_log [CLOCKS STEP]

   Writes the log of the trace on the standard input to the standard output. Each writer's calls go in extents of at
   most 4,096 records. With CLOCKS the log is one of version 2, with so many clocks, one each STEP ticks. All tell the
   same time, where STEP ticks are whole nanoseconds. */
#include "../packing.h"

enum { LINE = 16384 };

static unsigned long long clock_numbers[3];

static unsigned clocks = 1, written_clocks = 1;
static unsigned long long clock_step;

static struct extent {
    unsigned char body[BODY];
    size_t length;
    unsigned records;
    unsigned long long last;
} extents[WRITERS];

/* Writes the clocks that records up to this stamp have reached. */
static void write_clocks(unsigned long long stamp) {
    for (; written_clocks < clocks; written_clocks++) {
        unsigned long long ticks = written_clocks * clock_step, tick = clock_numbers[0] + ticks;
        if (tick > stamp) return;
        write_number(stdout, 3, 1);
        write_number(stdout, tick, 8);
        write_number(stdout, clock_numbers[1] + ticks * 1000000000 / clock_numbers[2], 8);
        write_number(stdout, clock_numbers[2], 8);
    }
}

static void end_extent(unsigned writer) {
    struct extent *extent = &extents[writer];
    if (!extent->records) return;
    write_clocks(extent->last);
    write_extent(stdout, writer, extent->body, extent->length);
    extent->records = 0;
    extent->length = 0;
}

/* Reads `call WRITER STAMP ID` and the arguments, and keeps the call as a record. */
static void add_call(char *line) {
    unsigned writer = (unsigned)strtoul(line + 5, &line, 10);
    unsigned long long stamp = strtoull(line, &line, 10);
    unsigned id = (unsigned)strtoul(line, &line, 10);
    struct extent *extent = &extents[writer];
    if (extent->records == RECORDS || extent->length + RECORD > BODY) end_extent(writer);

    struct argument arguments[ARGUMENTS];
    read_arguments(line, id, arguments);
    unsigned long long ticks = stamp - (extent->records ? extent->last : clock_numbers[0]);
    extent->length = (size_t)(put_record(extent->body + extent->length, id, ticks, arguments) - extent->body);
    extent->records++;
    extent->last = stamp;
}

int main(int count, char **words) {
    static char line[LINE];
    if (count == 3) {
        version = 2;
        clocks = (unsigned)strtoul(words[1], NULL, 10);
        clock_step = strtoull(words[2], NULL, 10);
    }
    unsigned writers = 0;
    while (fgets(line, LINE, stdin) && strcmp(line, "end\n")) {
        if (!strncmp(line, "message ", 8)) add_message(line, strchr(line, '\n'));
        if (!strncmp(line, "call ", 5)) add_call(line);
        sscanf(line, "clock %llu %llu %llu", &clock_numbers[0], &clock_numbers[1], &clock_numbers[2]);
        if (sscanf(line, "writers %u", &writers) == 1) write_front(stdout, writers, clock_numbers);
    }
    for (unsigned writer = 0; writer < writers; writer++) end_extent(writer);
    for (unsigned writer = 0; writer < writers; writer++) write_mark(stdout, writer);
    return ferror(stdin) || fflush(stdout) != 0;
}
