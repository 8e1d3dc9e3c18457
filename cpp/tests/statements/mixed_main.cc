// usage: mixed LOG [DICTIONARY]   It prints how many calls were logged, refused for their number, and had no message.
#include <cstdio>

#include "mixed.h"

void one(int number);
void other(int number);

int main(int count, char **words) {
    nanolog::Options options;
    nanolog::Session log(words[1], count > 2 ? words[2] : nullptr, options);
    one(1);
    other(2);
    NANO_LOG(NOTICE, "main %d", 3);
    const nanolog::Report report = log.close();
    std::printf("%llu %llu %llu\n", static_cast<unsigned long long>(report.logged),
                static_cast<unsigned long long>(report.stale), static_cast<unsigned long long>(report.unknown));
    return 0;
}
