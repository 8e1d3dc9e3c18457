/* Prints the lines of a made-up run whose calls lie in memory, by stamp, then writer, then ordinal:
   print_calls SEED CALLS WRITERS. */
#include "lines.h"

int main(int count, char **words) {
    if (count != 4) return 1;
    size_t calls = strtoul(words[2], 0, 10);
    struct run run = start(strtoull(words[1], 0, 10), (unsigned)strtoul(words[3], 0, 10));
    struct call *made = malloc((calls + 1) * sizeof *made);
    if (!made) return 1;
    for (size_t at = 0; at < calls; at++) {
        struct call call = next_call(&run);
        size_t place = at;
        /* The stamps of a run never fall, so that only calls at one stamp have to change places. */
        for (; place && made[place - 1].stamp == call.stamp && made[place - 1].writer > call.writer; place--) {
            made[place] = made[place - 1];
        }
        made[place] = call;
    }

    for (size_t at = 0; at < calls; at++) print_line(&made[at]);
    flush_lines();
    return fflush(stdout) != 0;
}
