/* Prints a million lines by snprintf, and says on the error output how many that were in a second. */
#include <stdio.h>
#include <time.h>

enum { LINES = 1000000, FULL = 65536, ROOM = 256 };

static char lines[FULL + ROOM];

static double seconds(void) {
    struct timespec now;
    clock_gettime(CLOCK_MONOTONIC, &now);
    return (double)now.tv_sec + (double)now.tv_nsec / 1e9;
}

int main(void) {
    double start = seconds();
    size_t length = 0;
    for (unsigned long long number = 0; number < LINES; number++) {
        length += (size_t)snprintf(lines + length, ROOM, "request %llu took %5d us\n", number, (int)(number % 99991));
        if (length >= FULL) {
            if (fwrite(lines, 1, length, stdout) != length) return 1;
            length = 0;
        }
    }
    if (fwrite(lines, 1, length, stdout) != length || fflush(stdout) != 0) return 1;
    fprintf(stderr, "%.0f lines a second\n", LINES / (seconds() - start));
    return 0;
}
