// How the C++ programs of this folder measure calls, and what they print.
//
// A Session is made for so many writers, each of which is a thread. `call` makes the call with a number, and tries
// again where there is no room; the number modulo 4 says which of the generator's messages it is of. `close` comes
// behind a writer's last call, and `consume` returns when all writers have closed.
#pragma once
#include <algorithm>
#include <chrono>
#include <cstdio>
#include <cstring>
#include <numeric>
#include <thread>
#include <vector>

constexpr unsigned long long kBurst = 20000;
constexpr int kBursts = 5;
// The threads sleep so long, and begin together so long after the first of them was started: each burst a little later
// than the one before, since a consumer that sleeps may wake in the midst of those that all begin after the same time.
constexpr std::chrono::milliseconds kPause{20};
constexpr std::chrono::milliseconds kBegin{25};
constexpr std::chrono::microseconds kLater{1300};

// What is called: every so many numbers from a first one on, and how many calls a long run has, of all threads
// together.
struct Kind {
    const char *name;
    unsigned long long first, step, run;
};
constexpr Kind kKinds[] = {{"all", 0, 1, 4000000}, {"queue", 1, 4, 10000000}, {"request", 2, 4, 10000000}};

// How many nanoseconds a thousand calls took, on the average of the writers.
template <class Session>
unsigned long long measure(const Kind &kind, unsigned writers, unsigned long long calls,
                           std::chrono::microseconds begin = kBegin) {
    using Clock = std::chrono::steady_clock;
    Session session(writers);
    std::vector<unsigned long long> taken(writers);
    std::vector<std::thread> threads;
    const auto start = Clock::now();
    for (unsigned writer = 0; writer < writers; writer++) {
        threads.emplace_back([&, writer] {
            std::this_thread::sleep_for(kPause);
            while (Clock::now() - start < begin) {
            }
            const auto begun = Clock::now();
            const unsigned long long end = kind.first + calls * kind.step;
            for (unsigned long long number = kind.first; number < end; number += kind.step)
                session.call(writer, number);
            const std::chrono::nanoseconds nanos = Clock::now() - begun;
            taken[writer] = static_cast<unsigned long long>(nanos.count()) * 1000 / calls;
            session.close(writer);
        });
    }
    session.consume();
    for (std::thread &thread : threads) thread.join();
    return std::accumulate(taken.begin(), taken.end(), 0ull) / writers;
}

// Prints lines `WRITERS burst NANOSECONDS`, of the best burst, and `WRITERS run NANOSECONDS`, both of a thousand calls
// of the kind that the program's word names. It answers the program's status.
template <class Session>
int measure_all(int count, char **words) {
    for (const Kind &kind : kKinds) {
        if (count != 2 || std::strcmp(words[1], kind.name) != 0) continue;
        for (const unsigned writers : {1u, 2u, 4u}) {
            unsigned long long best = ~0ull;
            for (int burst = 0; burst < kBursts; burst++)
                best = std::min(best, measure<Session>(kind, writers, kBurst, kBegin + burst * kLater));
            std::printf("%u burst %llu\n", writers, best);
            std::printf("%u run %llu\n", writers, measure<Session>(kind, writers, kind.run / writers));
        }
        return 0;
    }
    return 1;
}
