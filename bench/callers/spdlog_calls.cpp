// Makes calls of spdlog's asynchronous logger, whose queue has room for as many calls as the rings of all writers.
#include <spdlog/async.h>
#include <spdlog/sinks/basic_file_sink.h>

#include <memory>

#include "measuring.hpp"

namespace {

constexpr std::size_t kQueued = 32768;

struct Session {
    std::shared_ptr<spdlog::details::thread_pool> pool;
    std::shared_ptr<spdlog::async_logger> logger;

    explicit Session(unsigned writers)
        : pool(std::make_shared<spdlog::details::thread_pool>(kQueued * writers, 1)),
          logger(std::make_shared<spdlog::async_logger>(
              "calls", std::make_shared<spdlog::sinks::basic_file_sink_st>("/dev/null"), pool,
              spdlog::async_overflow_policy::block)) {
        logger->set_level(spdlog::level::debug);
    }

    void call(unsigned, unsigned long long number) {
        const unsigned draw = static_cast<unsigned>(number % 32768);
        switch (number % 4) {
            case 0:
                logger->error("disk {} failed at {:#x}", draw, draw * 65536ul);
                break;
            case 1:
                logger->warn("queue {} is {}% full", "q3", static_cast<int>(draw % 101));
                break;
            case 2:
                logger->info("request {} took {:5d} us", static_cast<unsigned long long>(draw), static_cast<int>(draw));
                break;
            default:
                logger->debug("state {}", static_cast<char>(33 + draw % 94));
        }
    }

    void close(unsigned) {}
    // The logger has a thread of its own, which the end of the session waits for.
    void consume() {}
};

}  // namespace

int main(int count, char **words) { return measure_all<Session>(count, words); }
