// Every conversion and every type of argument. What `decompress` prints of conversions.log is to be what
// conversions.expected holds, for which snprintf prints the same arguments.
#include <cinttypes>
#include <climits>
#include <cstddef>
#include <memory>
#include <nanolog.hpp>
#include <string>
#include <string_view>

#include "check.hpp"

#define EXPECT(severity, ...) expected.add("", #severity, __VA_ARGS__)

namespace {

enum Plain { kPlain = -7, kOther = 70000 };
enum Small : unsigned char { kSmall = 250 };
enum class Scoped { kOne = 1 };
enum class Wide : std::uint64_t { kMost = UINT64_MAX };

// It is defined nowhere, so it has no address.
struct Limits {
    static const int kLimit = 12;
};

struct Bits {
    unsigned three : 3;
    int five : 5;
};

void function() {}

void numbers(Expected &expected) {
    const int some[] = {0, 1, -1, 42, INT_MAX, INT_MIN, 255, -128, 65535, 1000000};
    for (const int n : some) {
        NANO_LOG(NOTICE, "%d|%i|%5d|%-5d|%05d|%+d|% d|%.3d|%8.5d|%-8.3i|%+.0d", n, n, n, n, n, n, n, n, n, n, n);
        EXPECT(NOTICE, "%d|%i|%5d|%-5d|%05d|%+d|% d|%.3d|%8.5d|%-8.3i|%+.0d", n, n, n, n, n, n, n, n, n, n, n);
        NANO_LOG(ERROR, "%hhd %hd %hhi %hi", n, n, n, n);
        EXPECT(ERROR, "%hhd %hd %hhi %hi", n, n, n, n);
        NANO_LOG(WARNING, "%u %o %x %X %#o %#x %#X %08x %-8u| %.9u %#10.4x", n, n, n, n, n, n, n, n, n, n, n);
        EXPECT(WARNING, "%u %o %x %X %#o %#x %#X %08x %-8u| %.9u %#10.4x", n, n, n, n, n, n, n, n, n, n, n);
        NANO_LOG(DEBUG, "%hhu %hu %hho %ho %hhx %hx %hhX %hX", n, n, n, n, n, n, n, n);
        EXPECT(DEBUG, "%hhu %hu %hho %ho %hhx %hx %hhX %hX", n, n, n, n, n, n, n, n);
    }
    const long longs[] = {0, 1, -1, LONG_MAX, LONG_MIN, 1l << 32, -(1l << 48), (1l << 56) - 1, 1l << 56};
    for (const long n : longs) {
        NANO_LOG(NOTICE, "%ld %lld %jd %zd %td %li %+lld %020ld", n, n, n, n, n, n, n, n);
        EXPECT(NOTICE, "%ld %lld %jd %zd %td %li %+lld %020ld", n, n, n, n, n, n, n, n);
        NANO_LOG(NOTICE, "%lu %llu %ju %zu %tu %lo %#lx %llX %#zo %jx %tX", n, n, n, n, n, n, n, n, n, n, n);
        EXPECT(NOTICE, "%lu %llu %ju %zu %tu %lo %#lx %llX %#zo %jx %tX", n, n, n, n, n, n, n, n, n, n, n);
    }
}

// Integers of any width go to any conversion of integers, as a cast to its type makes them.
void widths(Expected &expected) {
    const signed char tiny = -3;
    const unsigned char byte = 200;
    const short little = -300;
    const unsigned short port = 65000;
    const unsigned number = 4000000000u;
    const long large = -5000000000;
    const unsigned long long huge = 18000000000000000000ull;
    NANO_LOG(NOTICE, "%d %d %d %d %d %d %d", tiny, byte, little, port, number, large, huge);
    EXPECT(NOTICE, "%d %d %d %d %d %d %d", tiny, byte, little, port, (int)number, (int)large, (int)huge);
    NANO_LOG(NOTICE, "%u %u %u %u %u %u %u", tiny, byte, little, port, number, large, huge);
    EXPECT(NOTICE, "%u %u %u %u %u %u %u", tiny, byte, little, port, number, (unsigned)large, (unsigned)huge);
    NANO_LOG(NOTICE, "%ld %ld %ld %ld %ld %ld %ld", tiny, byte, little, port, number, large, huge);
    EXPECT(NOTICE, "%ld %ld %ld %ld %ld %ld %ld", (long)tiny, (long)byte, (long)little, (long)port, (long)number, large,
           (long)huge);
    NANO_LOG(NOTICE, "%lu %lu %lu %lu %lu %lu %llu", tiny, byte, little, port, number, large, huge);
    EXPECT(NOTICE, "%lu %lu %lu %lu %lu %lu %llu", (long)tiny, (long)byte, (long)little, (long)port, (long)number,
           large, huge);
    NANO_LOG(NOTICE, "%" PRId8 " %" PRIu16 " %" PRIx32 " %" PRId64 " %" PRIuMAX " %" PRIxPTR, tiny, port, number,
             int64_t{large}, uintmax_t{huge}, uintptr_t{huge});
    EXPECT(NOTICE, "%" PRId8 " %" PRIu16 " %" PRIx32 " %" PRId64 " %" PRIuMAX " %" PRIxPTR, tiny, port, number,
           int64_t{large}, uintmax_t{huge}, uintptr_t{huge});
    NANO_LOG(NOTICE, "%zu %zd %td %jd %ju", sizeof(int), ssize_t{-1}, ptrdiff_t{-2}, intmax_t{-3}, uintmax_t{4});
    EXPECT(NOTICE, "%zu %zd %td %jd %ju", sizeof(int), ssize_t{-1}, ptrdiff_t{-2}, intmax_t{-3}, uintmax_t{4});
}

void promoted(Expected &expected) {
    const bool yes = true;
    const char letter = 'x', high = static_cast<char>(0xe9);
    const wchar_t wide = L'w';
    const char16_t sixteen = u'y';
    const char32_t thirty = U'z';
    NANO_LOG(NOTICE, "%d %d %u %x %ld", yes, false, yes, yes, yes);
    EXPECT(NOTICE, "%d %d %u %x %ld", yes, false, yes, yes, (long)yes);
    NANO_LOG(NOTICE, "%c%c%c %d %d %u %hhx %-3c|%3c", letter, high, 65, letter, high, high, high, letter, letter);
    EXPECT(NOTICE, "%c%c%c %d %d %u %hhx %-3c|%3c", letter, high, 65, letter, high, high, high, letter, letter);
    NANO_LOG(NOTICE, "a NUL %c| and one beyond a byte %c", 0, 'a' + 256);
    EXPECT(NOTICE, "a NUL %c| and one beyond a byte %c", 0, 'a' + 256);
    NANO_LOG(NOTICE, "%d %d %u %c", wide, sixteen, thirty, thirty);
    EXPECT(NOTICE, "%d %d %u %c", wide, sixteen, thirty, thirty);
    NANO_LOG(NOTICE, "%d %d %d %d %lu", kPlain, kOther, kSmall, Scoped::kOne, Wide::kMost);
    EXPECT(NOTICE, "%d %d %d %d %lu", kPlain, kOther, kSmall, (int)Scoped::kOne, (unsigned long)Wide::kMost);
    const Bits bits = {5, -9};
    volatile int changing = 77;
    NANO_LOG(NOTICE, "%d %u %d %d", Limits::kLimit, bits.three, bits.five, changing);
    EXPECT(NOTICE, "%d %u %d %d", 12, bits.three, bits.five, changing);
}

void texts(Expected &expected) {
    const char *text = "a text";
    char array[16] = "an array";
    char *writable = array;
    const char three[3] = {'o', 'n', 'e'};
    char own[2] = {'m', 'y'};
    const std::string string = "a string";
    const std::string_view view(string.data() + 2, 3);
    std::string long_string(4000, 'l');
    NANO_LOG(NOTICE, "%s %s %s %s %s %s", text, array, writable, "a literal", string, view);
    EXPECT(NOTICE, "%s %s %s %s %s %s", text, array, writable, "a literal", string.c_str(), "str");
    NANO_LOG(NOTICE, "%10s|%-10s|%.3s|%10.3s|%-10.3s|%.0s|%.20s|%s", text, string, view, array, text, text, text, "");
    EXPECT(NOTICE, "%10s|%-10s|%.3s|%10.3s|%-10.3s|%.0s|%.20s|%s", text, string.c_str(), "str", array, text, text, text,
           "");
    NANO_LOG(NOTICE, "%s %s", std::string("made ") + text, std::string_view());
    EXPECT(NOTICE, "%s %s", "made a text", "");
    NANO_LOG(NOTICE, "%s", long_string);
    EXPECT(NOTICE, "%s", long_string.c_str());
    const char *null = nullptr;
    char *null_too = nullptr;
    NANO_LOG(NOTICE, "%s %s %s %10s|%-10s|", null, null_too, nullptr, null, null);
    EXPECT(NOTICE, "%s %s %s %10s|%-10s|", "(null)", "(null)", "(null)", "(null)", "(null)");
    // Nothing is read behind an array, nor behind a precision that is an argument.
    const std::unique_ptr<char[]> unended(new char[3]{'t', 'w', 'o'});
    NANO_LOG(NOTICE, "%.3s %.2s %.*s %.*s %.*s|%*.*s|", three, own, 3, unended.get(), 2, view, 0, unended.get(), 5, 2,
             three);
    EXPECT(NOTICE, "%.3s %.2s %.*s %.*s %.*s|%*.*s|", three, own, 3, unended.get(), 2, "str", 0, unended.get(), 5, 2,
           three);
    NANO_LOG(NOTICE, "%-----------------------------------------------------5d|%0000000000000000000000000000000000005d",
             1, 2);
    EXPECT(NOTICE, "%-----------------------------------------------------5d|%0000000000000000000000000000000000005d",
           1, 2);
    NANO_LOG(NOTICE, "%.*s %.*s", -1, text, 4095, string);
    EXPECT(NOTICE, "%.*s %.*s", -1, text, 4095, string.c_str());
    NANO_LOG(NOTICE, "bytes \x01\x7f\xc3\xa9 \"quoted\" \\ %%d %s \u20ac \t|", "\x02\xff\xc3\xa9\"\\%d");
    EXPECT(NOTICE, "bytes \x01\x7f\xc3\xa9 \"quoted\" \\ %%d %s \u20ac \t|", "\x02\xff\xc3\xa9\"\\%d");
    NANO_LOG(NOTICE, "two\nlines %s", "and\nmore");
    EXPECT(NOTICE, "two\nlines %s", "and\nmore");
}

void pointers(Expected &expected) {
    int number = 5;
    const volatile int *const changing = &number;
    const std::unique_ptr<int> owned(new int(6));
    void *const null = nullptr;
    NANO_LOG(NOTICE, "%p %p %p %20p|%-20p|", &number, changing, owned.get(), static_cast<void *>(&number), "text");
    EXPECT(NOTICE, "%p %p %p %20p|%-20p|", &number, changing, owned.get(), static_cast<void *>(&number), "text");
    NANO_LOG(NOTICE, "%p %p %8p %p", null, nullptr, nullptr, &function);
    EXPECT(NOTICE, "%p %p %8p %p", null, nullptr, nullptr, &function);
}

void sizes(Expected &expected) {
    for (int width = -12; width <= 12; width += 3) {
        for (int precision = -1; precision <= 9; precision += 2) {
            NANO_LOG(NOTICE, "%*d|%.*d|%*.*d|%0*d|%-*.*x", width, 42, precision, 42, width, precision, 42, width, 42,
                     width, precision, 42);
            EXPECT(NOTICE, "%*d|%.*d|%*.*d|%0*d|%-*.*x", width, 42, precision, 42, width, precision, 42, width, 42,
                   width, precision, 42);
            NANO_LOG(NOTICE, "%*s|%.*s|%*.*s|%*c|%*p", width, "text", precision, "text", width, precision, "text",
                     width, 'c', width, nullptr);
            EXPECT(NOTICE, "%*s|%.*s|%*.*s|%*c|%*p", width, "text", precision, "text", width, precision, "text", width,
                   'c', width, nullptr);
        }
    }
    NANO_LOG(NOTICE, "%*d %.*d", 4095, 1, 4095, 2);
    EXPECT(NOTICE, "%*d %.*d", 4095, 1, 4095, 2);
    NANO_LOG(NOTICE, "%*d %*d", -4095, 1, short{3}, 2);
    EXPECT(NOTICE, "%*d %*d", -4095, 1, 3, 2);
}

// As many arguments as there may be, and none.
void counts(Expected &expected) {
    NANO_LOG(NOTICE, "no argument, 100%%");
    EXPECT(NOTICE, "no argument, 100%%");
    NANO_LOG(NOTICE, "");
    EXPECT(NOTICE, "%s", "");
    NANO_LOG(NOTICE,
             "%d%d%d%d%d%d%d%d%d%d%d%d%d%d%d%d%d%d%d%d%d%d%d%d%d%d%d%d%d%d%d%d"
             "%d%d%d%d%d%d%d%d%d%d%d%d%d%d%d%d%d%d%d%d%d%d%d%d%d%d%d%d%d%d%d%s",
             1, 2, 3, 4, 5, 6, 7, 8, 9, 10, 11, 12, 13, 14, 15, 16, 17, 18, 19, 20, 21, 22, 23, 24, 25, 26, 27, 28, 29,
             30, 31, 32, 33, 34, 35, 36, 37, 38, 39, 40, 41, 42, 43, 44, 45, 46, 47, 48, 49, 50, 51, 52, 53, 54, 55, 56,
             57, 58, 59, 60, 61, 62, 63, "the last");
    std::string all;
    for (int number = 1; number < 64; number++) all += std::to_string(number);
    EXPECT(NOTICE, "%s%s", all.c_str(), "the last");
}

template <class Number>
void in_a_template(Expected &expected, Number number) {
    NANO_LOG(NOTICE, "of a template: %ld", number);
    EXPECT(NOTICE, "of a template: %ld", static_cast<long>(number));
}

// Where statements may stand.
void places(Expected &expected) {
    in_a_template(expected, 5);
    in_a_template(expected, short{6});
    for (const auto &[name, number] : {std::pair<std::string, int>{"one", 1}, std::pair<std::string, int>{"two", 2}}) {
        NANO_LOG(nanolog::WARNING, "%s is %d", name, number);
        EXPECT(WARNING, "%s is %d", name.c_str(), number);
    }
    const auto lambda = [&](int number) { NANO_LOG(::some::where::ERROR, "lambda %d", number); };
    lambda(3);
    EXPECT(ERROR, "lambda %d", 3);
    if (expected.calls() > 0)
        NANO_LOG(NOTICE, "then");
    else
        NANO_LOG(NOTICE, "else");
    EXPECT(NOTICE, "then");
    expected.calls() > 0 ? NANO_LOG(NOTICE, "yes") : NANO_LOG(NOTICE, "no");
    EXPECT(NOTICE, "yes");
    NANO_LOG(NOTICE, "%d %d", std::pair<int, int>(7, 8).first, (std::pair<int, int>{9, 10}.second));
    EXPECT(NOTICE, "%d %d", 7, 10);
}

void all(Expected &expected) {
    numbers(expected);
    widths(expected);
    promoted(expected);
    texts(expected);
    pointers(expected);
    sizes(expected);
    counts(expected);
    places(expected);
}

}  // namespace

int main() {
    Expected expected("conversions.expected");
#ifdef PRINTED
    all(expected);
#else
    nanolog::Options options;
    options.clock = next_tick;
    options.nanos = kBegin;
    options.keep_times = false;
    nanolog::Session log("conversions.log", DICTIONARY, options);
    CHECK(log);
    all(expected);
    const nanolog::Report report = log.close();
    CHECK(report.is_clean());
    CHECK(report.logged == expected.calls() && report.writers == 1 && report.shared == 0);
#endif
    return 0;
}
