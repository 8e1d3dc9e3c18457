// Logs calls as Writer::log does, into rings of words, from which the main thread packs them into a log.
#include <cstring>
#include <memory>
#include <string_view>

#include "../packing.h"
#include "../ring.hpp"
#include "measuring.hpp"

namespace {

constexpr Word kWords = 131072;
constexpr Word kStep = 50;
constexpr Word kTick = 1000;
constexpr std::chrono::microseconds kLeastNap{50};
constexpr std::chrono::microseconds kMostNap{1000};

const char *const kMessages[] = {
    "message 0 ERROR 10 \"gen.cc\" \"disk %u failed at %#lx\"",
    "message 1 WARNING 20 \"gen.cc\" \"queue %s is %d%% full\"",
    "message 2 NOTICE 30 \"gen.cc\" \"request %llu took %5d us\"",
    "message 3 DEBUG 40 \"gen.cc\" \"state %c\"",
};

// Logs the calls of one thread.
class Caller {
   public:
    explicit Caller(Ring<kWords> *ring) : end_{ring} {}

    template <class... Arguments>
    void log(Word id, Arguments... arguments) {
        len_ = 2;
        (put(arguments), ...);
        frame_[0] = id * 65536 + len_;
        frame_[1] = stamp_ += kStep;
        while (!end_.offer(frame_, len_)) std::this_thread::yield();
    }

    void close() { end_.close(); }

   private:
    void put(Word number) { frame_[len_++] = number; }
    void put(long long number) { frame_[len_++] = static_cast<Word>(number); }
    void put(std::string_view text) {
        frame_[len_++] = text.size();
        const std::size_t words = (text.size() + 7) / 8;
        if (words > 0) frame_[len_ + words - 1] = 0;
        std::memcpy(&frame_[len_], text.data(), text.size());
        len_ += words;
    }

    alignas(128) RingWriter<kWords> end_;
    Word stamp_ = kTick;
    Word len_ = 0;
    Word frame_[kMaxFrame];
};

struct Session {
    using Reader = RingReader<kWords>;

    std::vector<std::unique_ptr<Ring<kWords>>> rings;
    std::vector<Caller> callers;
    std::vector<Reader> readers;
    std::vector<bool> marked;
    std::unique_ptr<std::FILE, int (*)(std::FILE *)> log{std::fopen("/dev/null", "w"), std::fclose};

    explicit Session(unsigned writers) : marked(writers) {
        const Word clock_numbers[] = {kTick, 1514764800000000000, 2000000000};
        for (unsigned writer = 0; writer < writers; writer++) {
            rings.push_back(std::make_unique<Ring<kWords>>());
            callers.emplace_back(rings.back().get());
            readers.push_back(Reader{rings.back().get()});
        }
        write_front(log.get(), writers, clock_numbers);
    }

    void call(unsigned writer, Word number) {
        Caller &caller = callers[writer];
        const Word draw = number % 32768;
        switch (number % 4) {
            case 0:
                caller.log(0, draw, draw * 65536);
                break;
            case 1:
                caller.log(1, std::string_view("q3"), static_cast<long long>(draw % 101));
                break;
            case 2:
                caller.log(2, draw, static_cast<long long>(draw));
                break;
            default:
                caller.log(3, static_cast<long long>(33 + draw % 94));
        }
    }

    void close(unsigned writer) { callers[writer].close(); }

    // Takes a batch of frames of a writer and writes their extent, or its close mark. It answers whether it wrote.
    bool visit(unsigned writer) {
        static unsigned char body[BODY];
        Word frame[kMaxFrame], len, before = kTick;
        unsigned char *out = body;
        Reader::Answer answer = Reader::kFrame;
        for (unsigned records = 0; records < RECORDS && out + RECORD <= body + BODY; records++) {
            answer = readers[writer].take(frame, &len);
            if (answer != Reader::kFrame) break;
            out = pack_frame(frame, before, out);
            before = frame[1];
        }
        if (out != body) {
            write_extent(log.get(), writer, body, static_cast<std::size_t>(out - body));
            return true;
        }
        if (answer != Reader::kEnded || marked[writer]) return false;
        write_mark(log.get(), writer);
        marked[writer] = true;
        return true;
    }

    void consume() {
        std::chrono::microseconds nap = kLeastNap;
        while (std::find(marked.begin(), marked.end(), false) != marked.end()) {
            bool moved = false;
            for (unsigned writer = 0; writer < readers.size(); writer++) moved |= visit(writer);
            if (moved) {
                nap = kLeastNap;
            } else {
                std::this_thread::sleep_for(nap);
                nap = std::min(2 * nap, kMostNap);
            }
        }
    }
};

}  // namespace

int main(int count, char **words) {
    for (const char *message : kMessages) add_message(message, message + std::strlen(message));
    return measure_all<Session>(count, words);
}
