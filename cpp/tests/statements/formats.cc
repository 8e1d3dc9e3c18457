// Random formats, and what the compiler's reader says of each.
// usage: formats SEED COUNT
// It writes all of them into formats_all.cc, with one statement a line, and into formats.faults a row `LINE FAULT` for
// each that is refused, with the number of the fault. Those that aren't are in formats_right.cc, and in formats.types a
// row with the letters of what each takes.
#include <cstdio>
#include <cstdlib>
#include <nanolog.hpp>
#include <random>
#include <string>

#include "check.hpp"

namespace {

std::mt19937 random_numbers;

unsigned random_below(unsigned limit) { return static_cast<unsigned>(random_numbers() % limit); }

template <std::size_t Size>
const char *one_of(const char *const (&pieces)[Size]) {
    return pieces[random_below(Size)];
}

// A field, of which now and then a part is wrong.
std::string random_field() {
    const char *const flags[] = {"", "", "-", "+", " ", "#", "0", "-0", "+ #"};
    const char *const widths[] = {"", "", "", "*", "1", "40", "7", "12", "4095", random_below(4) == 0 ? "4096" : "3"};
    const char *const precisions[] = {"",
                                      "",
                                      "",
                                      ".",
                                      ".*",
                                      ".0",
                                      ".05",
                                      ".4",
                                      ".4000",
                                      ".4095",
                                      random_below(4) == 0 ? ".4096" : ".2",
                                      random_below(4) == 0 ? ".-1" : ""};
    const char *const lengths[] = {"", "", "", "", "h", "hh", "l", "ll", "j", "z", "t", "L", "hhh", "q"};
    const char *const conversions[] = {"d", "i", "u", "o", "x", "X", "c", "s", "s", "s", "p", "d", "u", "s",
                                       "f", "F", "e", "E", "g", "G", "a", "A", "n", "m", "%", "S", "y", ""};
    return std::string("%") + one_of(flags) + one_of(widths) + one_of(precisions) + one_of(lengths) +
           one_of(conversions);
}

std::string random_format() {
    const char *const literals[] = {"", "text ", "%%", "\x80\xff", "100%% of ", ", "};
    std::string format;
    for (unsigned left = random_below(4); left > 0; left--) format += one_of(literals) + random_field();
    format += one_of(literals);
    if (random_below(40) == 0) format.insert(random_below(static_cast<unsigned>(format.size()) + 1), 1, '\0');
    if (random_below(60) == 0) format.insert(0, 4080 + random_below(30), 'x');
    if (random_below(60) == 0) {
        for (unsigned left = 58 + random_below(8); left > 0; left--) format.insert(0, "%d");
    }
    return format;
}

void write_statement(std::FILE *file, const std::string &format, std::size_t arguments) {
    std::fprintf(file, "NANO_LOG(NOTICE, \"");
    for (const char byte : format) std::fprintf(file, "\\%03o", static_cast<unsigned>(byte) & 0xff);
    std::fprintf(file, "\"");
    while (arguments-- != 0) std::fprintf(file, ", 1");
    std::fprintf(file, ");\n");
}

}  // namespace

int main(int count, char **words) {
    CHECK(count == 3);
    random_numbers.seed(static_cast<unsigned>(std::atoi(words[1])));
    std::FILE *const all = std::fopen("formats_all.cc", "w"), *const faults = std::fopen("formats.faults", "w");
    std::FILE *const right = std::fopen("formats_right.cc", "w"), *const types = std::fopen("formats.types", "w");
    CHECK(all != nullptr && faults != nullptr && right != nullptr && types != nullptr);
    for (int line = 1; line <= std::atoi(words[2]); line++) {
        const std::string format = random_format();
        const nanolog::detail::Format found = nanolog::detail::read_format(format.data(), format.size());
        write_statement(all, format, found.count);
        if (found.fault != nanolog::detail::FormatFault::kNothing) {
            std::fprintf(faults, "%d %d\n", line, static_cast<int>(found.fault));
            continue;
        }
        write_statement(right, format, found.count);
        for (std::size_t at = 0; at < found.count; at++) std::fputc(nanolog::detail::letter_in(found.kinds[at]), types);
        std::fputc('\n', types);
    }
    for (std::FILE *const file : {all, faults, right, types}) CHECK(std::fclose(file) == 0);
    return 0;
}
