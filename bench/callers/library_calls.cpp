// Logs calls through the C library, as a C++ program does.
#include <nanolog.hpp>

#include "measuring.hpp"

namespace {

constexpr std::uint64_t kWords = 131072;

nanolog::Options options_for(unsigned writers) {
    nanolog::Options options;
    options.ring = kWords;
    options.writers = writers + 1;
    return options;
}

struct Session {
    nanolog::Session log;

#ifdef CALLS_DICTIONARY
    explicit Session(unsigned writers) : log("/dev/null", CALLS_DICTIONARY, options_for(writers)) {}
#else
    explicit Session(unsigned writers) : log("/dev/null", options_for(writers)) {}
#endif

    void call(unsigned, unsigned long long number) {
        const unsigned draw = static_cast<unsigned>(number % 32768);
        switch (number % 4) {
            case 0:
                NANO_LOG(ERROR, "disk %u failed at %#lx", draw, draw * 65536ul);
                break;
            case 1:
                NANO_LOG(WARNING, "queue %s is %d%% full", "q3", static_cast<int>(draw % 101));
                break;
            case 2:
                NANO_LOG(NOTICE, "request %llu took %5d us", static_cast<unsigned long long>(draw),
                         static_cast<int>(draw));
                break;
            default:
                NANO_LOG(DEBUG, "state %c", static_cast<char>(33 + draw % 94));
        }
    }

    void close(unsigned) {}
    // The log has a thread of its own, which the end of the session waits for.
    void consume() {}
};

}  // namespace

int main(int count, char **words) { return measure_all<Session>(count, words); }
