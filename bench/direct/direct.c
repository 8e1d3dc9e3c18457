/* Prints the lines of a trace of `nanolog generate` by stamp, writer and ordinal: direct TRACE. It checks nothing. */
#include <stdio.h>
#include <stdlib.h>
#include <string.h>

struct line {
    unsigned long long stamp;
    unsigned writer, ordinal;
    size_t at, length;
};

static int compare(const void *a, const void *b) {
    const struct line *one = a, *other = b;
    if (one->stamp != other->stamp) return one->stamp < other->stamp ? -1 : 1;
    if (one->writer != other->writer) return one->writer < other->writer ? -1 : 1;
    return one->ordinal < other->ordinal ? -1 : 1;
}

static const char *const names[] = {"gen.cc:10 ERROR", "gen.cc:20 WARNING", "gen.cc:30 NOTICE", "gen.cc:40 DEBUG"};

int main(int count, char **words) {
    FILE *file = count == 2 ? fopen(words[1], "rb") : 0;
    if (!file || fseek(file, 0, SEEK_END)) return 1;
    size_t size = (size_t)ftell(file);
    char *text = malloc(size + 1);
    rewind(file);
    if (!text || fread(text, 1, size, file) != size) return 1;
    text[size] = 0;

    size_t most = size / 13 + 1, lines = 0, length = 0, room = 1 << 20;
    struct line *made = malloc(most * sizeof *made);
    char *printed = malloc(room), *at = strstr(text, "\nclock ") + 7;
    unsigned ordinals[64] = {0};
    unsigned long long tick = strtoull(at, &at, 10), nanos = strtoull(at, &at, 10), rate = strtoull(at, &at, 10);
    at = strchr(at + 1, '\n') + 1;
    while (*at == 'c') {
        struct line *now = &made[lines++];
        now->writer = (unsigned)strtoull(at + 5, &at, 10);
        now->stamp = strtoull(at, &at, 10);
        now->ordinal = ordinals[now->writer]++;
        now->at = length;
        unsigned id = (unsigned)strtoull(at, &at, 10);
        unsigned __int128 since = (unsigned __int128)(now->stamp - tick) * 1000000000 / rate;
        unsigned long long time = nanos + (unsigned long long)since;
        if (room - length < 256 && !(printed = realloc(printed, room *= 2))) return 1;
        char *out = printed + length;
        out += snprintf(out, 100, "%llu.%09llu %s[%u]: ", time / 1000000000, time % 1000000000, names[id], now->writer);
        if (id == 0) {
            unsigned disk = (unsigned)strtoull(at, &at, 10);
            out += snprintf(out, 100, "disk %u failed at %#lx\n", disk, (unsigned long)strtoull(at, &at, 10));
        } else if (id == 1) {
            char queue[8] = {0};
            char *end = strchr(at + 2, '"');
            memcpy(queue, at + 2, (size_t)(end - at - 2));
            out += snprintf(out, 100, "queue %s is %d%% full\n", queue, (int)strtoull(end + 1, &at, 10));
        } else if (id == 2) {
            unsigned long long request = strtoull(at, &at, 10);
            out += snprintf(out, 100, "request %llu took %5d us\n", request, (int)strtoull(at, &at, 10));
        } else {
            out += snprintf(out, 100, "state %c\n", (int)strtoull(at, &at, 10));
        }
        now->length = (size_t)(out - printed) - length;
        length = (size_t)(out - printed);
        at++;
    }
    qsort(made, lines, sizeof *made, compare);
    char *ordered = malloc(length + 1), *end = ordered;
    for (size_t line = 0; line < lines; line++) {
        memcpy(end, printed + made[line].at, made[line].length);
        end += made[line].length;
    }
    return fwrite(ordered, 1, length, stdout) != length || fflush(stdout) != 0;
}
