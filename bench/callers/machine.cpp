// Prints how many nanoseconds it takes to exchange an atomic word of one's own, and to read the clock, a thousand
// times.
#include <atomic>
#include <chrono>
#include <cstdio>
#include <ctime>

namespace {

constexpr unsigned long long kTimes = 10000000;

template <class Step>
void measure(const char *name, Step step) {
    const auto begun = std::chrono::steady_clock::now();
    for (unsigned long long time = 0; time < kTimes; time++) step(time);
    const std::chrono::nanoseconds nanos = std::chrono::steady_clock::now() - begun;
    std::printf("%s %llu\n", name, static_cast<unsigned long long>(nanos.count()) * 1000 / kTimes);
}

}  // namespace

int main() {
    static std::atomic<unsigned long long> words[64];
    measure("exchange", [](unsigned long long time) { words[time % 64].exchange(time); });
    measure("clock", [](unsigned long long) {
        timespec now;
        clock_gettime(CLOCK_MONOTONIC, &now);
    });
    return 0;
}
