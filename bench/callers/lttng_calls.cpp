// Makes calls as events of LTTng, which a session of its own records. What that session discards it counts itself.
#define LTTNG_UST_TRACEPOINT_CREATE_PROBES
#define LTTNG_UST_TRACEPOINT_DEFINE
#include "lttng_calls.hpp"

#include "measuring.hpp"

namespace {

struct Session {
    explicit Session(unsigned) {}

    void call(unsigned, unsigned long long number) {
        const unsigned draw = static_cast<unsigned>(number % 32768);
        switch (number % 4) {
            case 0:
                lttng_ust_tracepoint(callers, disk, draw, draw * 65536ul);
                break;
            case 1:
                lttng_ust_tracepoint(callers, queue, "q3", static_cast<int>(draw % 101));
                break;
            case 2:
                lttng_ust_tracepoint(callers, request, static_cast<unsigned long long>(draw), static_cast<int>(draw));
                break;
            default:
                lttng_ust_tracepoint(callers, state, static_cast<char>(33 + draw % 94));
        }
    }

    void close(unsigned) {}
    // The events go to a daemon, for which nothing waits.
    void consume() {}
};

}  // namespace

int main(int count, char **words) { return measure_all<Session>(count, words); }
