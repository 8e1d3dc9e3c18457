// Says how many nanoseconds a frame takes that is put into a ring of words while another thread takes.
//
// usage: rings WORDS-OF-A-FRAME FRAMES NAP
//
// NAP is how many microseconds the thread that takes sleeps where it finds nothing, or 0.
#include <chrono>
#include <cstdio>
#include <cstdlib>
#include <memory>
#include <thread>

#include "../ring.hpp"

namespace {

constexpr Word kWords = 65536;

}  // namespace

int main(int argc, char **argv) {
    if (argc != 4) return 2;
    const Word len = std::strtoull(argv[1], nullptr, 10);
    const Word frames = std::strtoull(argv[2], nullptr, 10);
    const long nap = std::strtol(argv[3], nullptr, 10);
    auto ring = std::make_unique<Ring<kWords>>();
    Word sum = 0;
    std::thread taker([&] {
        using Reader = RingReader<kWords>;
        Reader reader{ring.get()};
        static Word into[kMaxFrame];
        Word got = 0;
        for (;;) {
            const Reader::Answer answer = reader.take(into, &got);
            if (answer == Reader::kEnded) break;
            if (answer == Reader::kFrame) {
                sum += into[got - 1];
            } else if (nap > 0) {
                std::this_thread::sleep_for(std::chrono::microseconds(nap));
            }
        }
    });
    RingWriter<kWords> writer{ring.get()};
    Word frame[kMaxFrame] = {len, 0};
    const auto start = std::chrono::steady_clock::now();
    for (Word k = 0; k < frames; k++) {
        frame[len - 1] = k;
        while (!writer.offer(frame, len)) std::this_thread::yield();
    }
    const auto taken = std::chrono::steady_clock::now() - start;
    writer.close();
    taker.join();
    if (sum != frames * (frames - 1) / 2) return 1;
    const auto nanos = std::chrono::duration_cast<std::chrono::nanoseconds>(taken).count();
    std::printf("%.1f\n", static_cast<double>(nanos) / static_cast<double>(frames));
    return 0;
}
