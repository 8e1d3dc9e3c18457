// Makes calls of fprintf, each thread into a file of its own.
#include <memory>

#include "measuring.hpp"

namespace {

constexpr unsigned long long kStep = 50;

struct Caller {
    alignas(128) std::unique_ptr<std::FILE, int (*)(std::FILE *)> file{std::fopen("/dev/null", "w"), std::fclose};
    unsigned long long stamp = 1000;
};

struct Session {
    std::vector<Caller> callers;

    explicit Session(unsigned writers) : callers(writers) {}

    void call(unsigned writer, unsigned long long number) {
        Caller &caller = callers[writer];
        std::FILE *file = caller.file.get();
        const unsigned long long stamp = caller.stamp += kStep;
        const unsigned long long seconds = stamp / 1000000000, nanos = stamp % 1000000000;
        const unsigned draw = static_cast<unsigned>(number % 32768);
        switch (number % 4) {
            case 0:
                std::fprintf(file, "%llu.%09llu gen.cc:10 ERROR[%u]: disk %u failed at %#lx\n", seconds, nanos, writer,
                             draw, draw * 65536ul);
                break;
            case 1:
                std::fprintf(file, "%llu.%09llu gen.cc:20 WARNING[%u]: queue %s is %d%% full\n", seconds, nanos, writer,
                             "q3", static_cast<int>(draw % 101));
                break;
            case 2:
                std::fprintf(file, "%llu.%09llu gen.cc:30 NOTICE[%u]: request %llu took %5d us\n", seconds, nanos,
                             writer, static_cast<unsigned long long>(draw), static_cast<int>(draw));
                break;
            default:
                std::fprintf(file, "%llu.%09llu gen.cc:40 DEBUG[%u]: state %c\n", seconds, nanos, writer,
                             static_cast<int>(33 + draw % 94));
        }
    }

    void close(unsigned) {}
    void consume() {}
};

}  // namespace

int main(int count, char **words) { return measure_all<Session>(count, words); }
