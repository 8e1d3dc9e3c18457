/* Rounds over so many rings of 1,024 words. Each loads how far a ring's writer has come, and compares it with what was
   taken. It prints how many picoseconds a round takes for each ring.
   usage: load_idle WRITERS */
#include <stdatomic.h>
#include <stdio.h>
#include <stdlib.h>
#include <time.h>

enum { TURNS = 10, LOOKS = 4000000 };

struct ring {
    _Alignas(128) atomic_ullong put;
    _Alignas(128) unsigned long long taken;
    _Alignas(128) atomic_ullong words[1024];
};

static unsigned long long nanos_now(void) {
    struct timespec now;
    clock_gettime(CLOCK_MONOTONIC, &now);
    return (unsigned long long)now.tv_sec * 1000000000 + (unsigned long long)now.tv_nsec;
}

int main(int count, char **words) {
    unsigned writers = count == 2 ? (unsigned)atoi(words[1]) : 0;
    struct ring *rings = writers ? aligned_alloc(128, writers * sizeof *rings) : NULL;
    if (!rings) return 1;
    for (unsigned at = 0; at < writers; at++) rings[at].put = rings[at].taken = 0;
    unsigned long long best = ~0ull, found = 0, rounds = LOOKS / writers;
    for (int turn = 0; turn < TURNS; turn++) {
        unsigned long long begun = nanos_now();
        for (unsigned long long round = 0; round < rounds; round++) {
            for (unsigned at = 0; at < writers; at++) found += atomic_load(&rings[at].put) != rings[at].taken;
        }
        unsigned long long taken = (nanos_now() - begun) * 1000 / (rounds * writers);
        if (taken < best) best = taken;
    }
    printf("%llu\n", best);
    return found != 0;
}
