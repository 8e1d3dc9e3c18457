/* Prints fields as the C library's own snprintf prints them, for a case of the program nanolog_cases:

       cc -o fields fields.c && ./fields trace && ./fields lines

   The first prints the trace of the case, which stands in crates/nanolog_cases/data/formats.cases: a message and a call for
   each field. The name of a message's file says what is printed. The second prints the lines of these calls, as they
   stand in crates/nanolog_cases/stdout. Only fields that C11 7.21.6.1 defines are in it: no `#` on d, i and u, on c, s
   and p no flag but `-`, and no precision on c and p. What `p` writes is the library's choice; glibc's is the one that
   the crate follows. */
#include <inttypes.h>
#include <limits.h>
#include <stddef.h>
#include <stdint.h>
#include <stdio.h>
#include <string.h>
#include <sys/types.h>

static const char *const lengths[] = {"", "hh", "h", "l", "ll", "j", "z", "t"};
static const char *const widths[] = {"", "5", "1", "9"};
static const char *const precisions[] = {"", ".0", ".5", ".1", "."};
static const long long numbers[] = {0, 42, -42, 300, -129, 65535, -32769, 1, -1, INT_MAX, INT_MIN, 8};
static const long long longs[] = {LLONG_MIN, LLONG_MAX, 4294967296};
static const char *const texts[] = {"abc", "", "a", "hello world"};

enum { LENGTHS = 8, WIDTHS = 4, PRECISIONS = 5, NUMBERS = 12, LONGS = 3, TEXTS = 4 };

/* What is printed of each field, the number of the next one, and the state of the sequence that they are picked by. */
static enum { MESSAGES, CALLS, LINES } part;
static int row;
static uint32_t state;

/* One row: what is printed, the call's arguments, and the text. */
static void put_row(const char *format, const char *shown, const char *arguments, const char *text) {
    if (part == MESSAGES) printf("  message %d ERROR %d \"%s of %s\" \"<%s>\"\n", row, row + 1, format, shown, format);
    else if (part == CALLS) printf("  call 0 0 %d %s\n", row, arguments);
    else printf("  0.000000000 %s of %s:%d ERROR[0]: <%s>\n", format, shown, row + 1, text);
    row++;
}

/* The stars, each with what stands behind it, and the value in marks. */
static void join(char *into, int stars, const int *star, const char *comma, const char *mark, const char *value) {
    for (int i = 0; i < stars; i++) into += sprintf(into, "%d%s", star[i], comma);
    sprintf(into, "%s%s%s", mark, value, mark);
}

static int is_long(const char *length) { return length[0] != '\0' && length[0] != 'h'; }

/* One row: at most two stars, then a number of the type that the length asks for. */
static void put_number(const char *format, const char *length, char conversion, int stars, const int *star, long long value) {
    char text[128];
    int is_signed = conversion == 'd' || conversion == 'i' || conversion == 'c';
#define PRINT(v) \
    (stars == 0 ? snprintf(text, sizeof text, format, v) \
     : stars == 1 ? snprintf(text, sizeof text, format, star[0], v) \
                  : snprintf(text, sizeof text, format, star[0], star[1], v))
    if (conversion == 'p') {
        PRINT((void *)(uintptr_t)value);
    } else if (!is_long(length)) {
        if (is_signed) PRINT((int)value); else PRINT((unsigned)value);
    } else if (strcmp(length, "l") == 0) {
        if (is_signed) PRINT((long)value); else PRINT((unsigned long)value);
    } else if (strcmp(length, "ll") == 0) {
        if (is_signed) PRINT(value); else PRINT((unsigned long long)value);
    } else if (strcmp(length, "j") == 0) {
        if (is_signed) PRINT((intmax_t)value); else PRINT((uintmax_t)value);
    } else if (strcmp(length, "z") == 0) {
        if (is_signed) PRINT((ssize_t)value); else PRINT((size_t)value);
    } else {
        if (is_signed) PRINT((ptrdiff_t)value); else PRINT((size_t)value);
    }
#undef PRINT
    char number[32], shown[64], arguments[64];
    if (is_signed) sprintf(number, "%lld", value);
    else if (conversion == 'p' || is_long(length)) sprintf(number, "%llu", (unsigned long long)value);
    else sprintf(number, "%u", (unsigned)value);
    join(shown, stars, star, ", ", "", number);
    join(arguments, stars, star, " ", "", number);
    put_row(format, shown, arguments, text);
}

static void put_text(const char *format, int stars, const int *star, const char *value) {
    char text[128];
    if (stars == 0) snprintf(text, sizeof text, format, value);
    else if (stars == 1) snprintf(text, sizeof text, format, star[0], value);
    else snprintf(text, sizeof text, format, star[0], star[1], value);
    char shown[64], arguments[64];
    join(shown, stars, star, ", ", "'", value);
    join(arguments, stars, star, " ", "\"", value);
    put_row(format, shown, arguments, text);
}

static void flags_of(unsigned set, char *flags) {
    const char *all = "-+ #0";
    for (int i = 0; i < 5; i++)
        if (set >> i & 1) *flags++ = all[i];
    *flags = '\0';
}

/* A number below the limit, by a fixed sequence. */
static unsigned pick(unsigned limit) {
    state = state * 1664525 + 1013904223;
    return (state >> 16) % limit;
}

/* Every flag set with every integer conversion, three times, with some length, width, precision and value. */
static void put_integers(void) {
    for (const char *conversion = "diuoxX"; *conversion; conversion++)
        for (unsigned set = 0; set < 32; set++) {
            int sharp = set >> 3 & 1;
            if (sharp && strchr("diu", *conversion)) continue;
            for (int again = 0; again < 3; again++) {
                char flags[8], format[64];
                flags_of(set, flags);
                const char *length = lengths[pick(LENGTHS)];
                const char *width = widths[pick(WIDTHS)];
                const char *precision = precisions[again == 0 ? 0 : pick(PRECISIONS)];
                long long value = is_long(length) && pick(3) == 0 ? longs[pick(LONGS)] : numbers[pick(NUMBERS)];
                snprintf(format, sizeof format, "%%%s%s%s%s%c", flags, width, precision, length, *conversion);
                put_number(format, length, *conversion, 0, NULL, value);
            }
        }
}

static void put_others(void) {
    for (int left = 0; left < 2; left++)
        for (int w = 0; w < WIDTHS; w++) {
            char format[64];
            for (int t = 0; t < TEXTS; t++) {
                snprintf(format, sizeof format, "%%%s%s%ss", left ? "-" : "", widths[w], precisions[(t + w) % PRECISIONS]);
                put_text(format, 0, NULL, texts[t]);
            }
            snprintf(format, sizeof format, "%%%s%sc", left ? "-" : "", widths[w]);
            put_number(format, "", 'c', 0, NULL, 'A' + w);
            snprintf(format, sizeof format, "%%%s%sp", left ? "-" : "", widths[w]);
            put_number(format, "", 'p', 0, NULL, w == 0 ? -1 : w == 1 ? 0 : 255 * w);
        }
}

static void put_stars(void) {
    static const int star[][2] = {{6, 3}, {-6, 3}, {0, -1}, {-9, -2}, {8, 0}, {1, 4}};
    for (int i = 0; i < 6; i++) {
        put_number("%*d", "", 'd', 1, star[i], 7);
        put_number("%0*d", "", 'd', 1, star[i], -7);
        put_number("%+.*d", "", 'd', 1, star[i] + 1, 0);
        put_number("%0*.*d", "", 'd', 2, star[i], 42);
        put_number("%#*.*lx", "l", 'x', 2, star[i], 3054);
        put_number("%#-*.*o", "", 'o', 2, star[i], 8);
        put_text("%*.*s", 2, star[i], "abcdef");
    }
}

static void put_part(int which) {
    part = which;
    row = 0;
    state = 1;
    put_integers();
    put_others();
    put_stars();
}

int main(int count, char **words) {
    if (count == 2 && strcmp(words[1], "lines") == 0) {
        put_part(LINES);
        return 0;
    }
    if (count != 2 || strcmp(words[1], "trace") != 0) return 1;
    puts("  nanolog-trace 1");
    put_part(MESSAGES);
    puts("  clock 0 0 1\n  writers 1");
    put_part(CALLS);
    puts("  end");
    return 0;
}
