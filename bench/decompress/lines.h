/* The lines of a made-up run's calls. */
#include <stdio.h>
#include <stdlib.h>

#include "../calls.h"

enum { FULL = 1 << 20, ROOM = 256 };

static char lines[FULL + ROOM];
static size_t line_bytes;

static size_t format_line(const struct call *call, char *line) {
    static const char *const names[MESSAGES] = {
        "gen.cc:10 ERROR", "gen.cc:20 WARNING", "gen.cc:30 NOTICE", "gen.cc:40 DEBUG",
    };
    unsigned long long time = 1514764800000000000 + (call->stamp - 1000) / 2;
    int head = snprintf(line, ROOM, "%llu.%09llu %s[%u]: ", time / 1000000000, time % 1000000000, names[call->id],
                        call->writer);
    char *text = line + head;
    size_t room = ROOM - (size_t)head;
    int length;
    if (call->id == 0) {
        length = snprintf(text, room, "disk %u failed at %#lx\n", call->first, (unsigned long)call->second);
    } else if (call->id == 1) {
        char queue[] = {'q', (char)('0' + call->first), 0};
        length = snprintf(text, room, "queue %s is %d%% full\n", queue, (int)call->second);
    } else if (call->id == 2) {
        length = snprintf(text, room, "request %llu took %5d us\n", (unsigned long long)call->first, (int)call->second);
    } else {
        length = snprintf(text, room, "state %c\n", (int)call->first);
    }
    return (size_t)(head + length);
}

static void flush_lines(void) {
    if (fwrite(lines, 1, line_bytes, stdout) != line_bytes) exit(1);
    line_bytes = 0;
}

static void print_line(const struct call *call) {
    line_bytes += format_line(call, lines + line_bytes);
    if (line_bytes >= FULL) flush_lines();
}
