// A ring of words between two threads, as the crate word_ring has it: a producer word, a consumer word and data words,
// all of them atomic and sequentially consistent.
#pragma once
#include <atomic>
#include <cstddef>

using Word = unsigned long long;

constexpr std::size_t kMaxFrame = 512;

template <Word kWords>
struct Ring {
    alignas(128) std::atomic<Word> producer{0};
    alignas(128) std::atomic<Word> consumer{0};
    alignas(128) std::atomic<Word> data[kWords] = {};
};

template <Word kWords>
struct RingWriter {
    Ring<kWords> *ring;
    Word at = 0;

    bool offer(const Word *frame, Word len) {
        Word place = at % kWords;
        const Word need = place + len <= kWords ? len : len + (kWords - place);
        const Word room = kWords - (at - ring->consumer.load());
        if (need > room) return false;
        if (need > len) {
            ring->data[place].store(0);
            place = 0;
        }
        for (Word i = 0; i < len; i++) ring->data[place + i].store(frame[i]);
        at += need;
        ring->producer.store(2 * at);
        return true;
    }

    void close() { ring->producer.store(2 * at + 1); }
};

template <Word kWords>
struct RingReader {
    enum Answer { kFrame, kNothing, kEnded };
    Ring<kWords> *ring;
    Word at = 0;
    Word loaded = 0;
    bool closed = false;

    Answer take(Word *into, Word *len) {
        if (at == loaded) {
            const Word word = ring->producer.load();
            loaded = word / 2;
            closed = word % 2 == 1;
            if (at == loaded) return closed ? kEnded : kNothing;
        }
        Word place = at % kWords;
        Word head = ring->data[place].load();
        if (head == 0) {
            at += kWords - place;
            place = 0;
            head = ring->data[0].load();
        }
        *len = head % 65536;
        into[0] = head;
        for (Word i = 1; i < *len; i++) into[i] = ring->data[place + i].load();
        at += *len;
        ring->consumer.store(at);
        return kFrame;
    }
};
