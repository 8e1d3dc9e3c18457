// Rounds of a consumer that finds nothing, over so many rings of 1,024 words whose writers were all given out.
// usage: pump_idle rounds WRITERS   prints how many picoseconds a round takes for each ring
//        pump_idle memory WRITERS   prints the greatest resident memory in KB, before the session and with all its
//                                   writers when each has logged a call
#include <nanolog.h>

#include <chrono>
#include <cstdio>
#include <cstdlib>
#include <cstring>
#include <vector>

namespace {

constexpr char kDictionary[] = "nanolog-trace 1\nmessage 0 NOTICE 1 \"idle.cc\" \"nothing\"\n";
constexpr int kTurns = 10;
constexpr std::uint64_t kLooks = 4000000;

void check(bool is_so, const char *what) {
    if (is_so) return;
    std::fprintf(stderr, "pump_idle: %s\n", what);
    std::exit(1);
}

class Session {
   public:
    explicit Session(std::uint32_t writers) : writers_(writers) {
        std::uint64_t line = 0;
        check(nanolog_open(reinterpret_cast<const std::uint8_t *>(kDictionary), sizeof kDictionary - 1, 1024, writers,
                           4096, 0, 0, 1000000000, &session_, &consumer_, &line) == NANOLOG_OK,
              "nanolog_open refuses");
        for (void *&writer : writers_) check(nanolog_writer(&session_, &writer) == NANOLOG_OK, "there is no writer");
        pump();
    }
    ~Session() {
        for (void *writer : writers_) nanolog_free(writer);
        nanolog_free(session_);
        nanolog_free(consumer_);
    }

    void log_all() {
        std::uint64_t need = 0, room = 0;
        for (void *&writer : writers_)
            check(nanolog_log(&writer, 5, 0, nullptr, 0, &need, &room) == NANOLOG_OK, "a call is refused");
        pump();
    }

    // Pumps until nothing waits.
    void pump() {
        std::int64_t answer = 1;
        while (answer > 0) answer = nanolog_pump(&consumer_, bytes_, sizeof bytes_);
        check(answer == 0, "nanolog_pump refuses");
    }

   private:
    std::vector<void *> writers_;
    void *session_ = nullptr, *consumer_ = nullptr;
    std::uint8_t bytes_[65536];
};

void measure(std::uint32_t writers) {
    Session session(writers);
    using Clock = std::chrono::steady_clock;
    const std::uint64_t rounds = kLooks / writers;
    std::uint64_t best = ~0ull;
    for (int turn = 0; turn < kTurns; turn++) {
        const auto begun = Clock::now();
        for (std::uint64_t round = 0; round < rounds; round++) session.pump();
        const std::chrono::nanoseconds nanos = Clock::now() - begun;
        const std::uint64_t taken = static_cast<std::uint64_t>(nanos.count()) * 1000 / (rounds * writers);
        if (taken < best) best = taken;
    }
    std::printf("%llu\n", static_cast<unsigned long long>(best));
}

unsigned long resident() {
    std::FILE *const status = std::fopen("/proc/self/status", "r");
    char row[256];
    unsigned long kilobytes = 0;
    check(status != nullptr, "there is no /proc/self/status");
    while (std::fgets(row, sizeof row, status) != nullptr)
        if (std::sscanf(row, "VmHWM: %lu kB", &kilobytes) == 1) break;
    std::fclose(status);
    return kilobytes;
}

}  // namespace

int main(int count, char **words) {
    check(count == 3, "usage: pump_idle rounds|memory WRITERS");
    const auto writers = static_cast<std::uint32_t>(std::atoi(words[2]));
    if (std::strcmp(words[1], "rounds") == 0) {
        measure(writers);
        return 0;
    }
    const unsigned long before = resident();
    Session session(writers);
    session.log_all();
    std::printf("%lu %lu\n", before, resident());
    return 0;
}
