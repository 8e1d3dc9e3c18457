// Threads that log at once.
// usage: threads THREADS CALLS wait|drop       each thread makes so many calls, beside each other
//        threads ALONE CALLS one               so many threads, one after the other
//        threads ALONE CALLS least             as these, with the least stack that a thread may have
//        threads ALIVE CALLS all [WRITERS]     so many threads that are alive until all have called
// It prints how many calls were logged and dropped, how many writers there were, and how many calls the shared one
// made.
#include <pthread.h>

#include <climits>
#include <cstring>
#include <nanolog.hpp>
#include <string>
#include <thread>
#include <vector>

#include "check.hpp"

namespace {

void call(int thread, int number) {
    const std::string text(static_cast<std::size_t>(number % 23), 'x');
    if (number % 3 == 0) {
        NANO_LOG(NOTICE, "thread %d call %d", thread, number);
    } else if (number % 3 == 1) {
        NANO_LOG(WARNING, "thread %d call %d of %s", thread, number, text);
    } else {
        NANO_LOG(DEBUG, "thread %d call %d with %llu and %p", thread, number, 1ull << (number % 64), nullptr);
    }
}

void call_all(int thread, int calls) {
    for (int number = 0; number < calls; number++) call(thread, number);
}

struct Work {
    int thread, calls;
};

// Makes the calls in a thread with the least stack.
void call_on_least_stack(Work work) {
    pthread_attr_t attributes;
    pthread_t thread;
    pthread_attr_init(&attributes);
    CHECK(pthread_attr_setstacksize(&attributes, static_cast<std::size_t>(PTHREAD_STACK_MIN)) == 0);
    const auto run = [](void *of) -> void * {
        const Work &own = *static_cast<Work *>(of);
        call_all(own.thread, own.calls);
        return nullptr;
    };
    CHECK(pthread_create(&thread, &attributes, run, &work) == 0);
    CHECK(pthread_join(thread, nullptr) == 0);
    pthread_attr_destroy(&attributes);
}

}  // namespace

int main(int count, char **words) {
    CHECK(count == 4 || count == 5);
    const int threads = std::atoi(words[1]), calls = std::atoi(words[2]);
    const std::string way = words[3];
    nanolog::Options options;
    options.ring = 1024;
    if (count == 5) options.writers = static_cast<std::uint32_t>(std::atoi(words[4]));
    options.policy = way == "drop" ? nanolog::Policy::Drop : nanolog::Policy::Wait;
    options.quiet = true;
    nanolog::Session log("threads.log", DICTIONARY, options);
    CHECK(log);

    pthread_barrier_t barrier;
    pthread_barrier_init(&barrier, nullptr, static_cast<unsigned>(threads));
    std::vector<std::thread> running;
    for (int thread = 0; thread < threads; thread++) {
        if (way == "least") {
            call_on_least_stack({thread, calls});
            continue;
        }
        running.emplace_back([&, thread] {
            if (way != "one") pthread_barrier_wait(&barrier);
            call_all(thread, calls);
            if (way == "all") pthread_barrier_wait(&barrier);
        });
        if (way == "one") {
            running.back().join();
            running.pop_back();
        }
    }
    for (std::thread &thread : running) thread.join();
    pthread_barrier_destroy(&barrier);

    const nanolog::Report report = log.close();
    std::uint64_t logged = 0, dropped = 0;
    for (std::uint32_t number = 0; number < report.writers; number++) {
        const nanolog::Report::Writer &writer = report.writer[number];
        CHECK((writer.dropped == 0) == (writer.need == 0) && writer.need >= writer.room);
        logged += writer.logged;
        dropped += writer.dropped;
    }
    CHECK(logged == report.logged && dropped == report.dropped);
    CHECK(logged + dropped == static_cast<std::uint64_t>(threads) * static_cast<std::uint64_t>(calls));
    CHECK(way == "drop" || report.is_clean());
    std::printf("%llu %llu %u %llu\n", static_cast<unsigned long long>(report.logged),
                static_cast<unsigned long long>(report.dropped), report.writers,
                static_cast<unsigned long long>(report.shared));
    return 0;
}
