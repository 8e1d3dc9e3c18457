// Each C call with each value that it refuses, and what stays as it was.
// What it logged is written into calls.log.
#include <climits>
#include <initializer_list>
#include <string>
#include <vector>

#include "blocks.hpp"
#include "check.hpp"
#include "nanolog.h"

// How many pieces of memory the library is still given, how many it has, and how often it asked for one or gave one
// back. The program is linked with --wrap for these three.
static int pieces_left = INT_MAX;
static long pieces_held = 0, requests = 0;
extern "C" {
void *__real_malloc(std::size_t size);
void *__real_realloc(void *piece, std::size_t size);
void __real_free(void *piece);
void *__wrap_malloc(std::size_t size) {
    requests++;
    return pieces_left > 0 ? pieces_left--, pieces_held++, __real_malloc(size) : nullptr;
}
void *__wrap_realloc(void *piece, std::size_t size) {
    requests++;
    return pieces_left > 0 ? pieces_left--, pieces_held += piece == nullptr, __real_realloc(piece, size) : nullptr;
}
void __wrap_free(void *piece) {
    requests++;
    pieces_held -= piece != nullptr;
    __real_free(piece);
}
}

namespace {

constexpr std::uint64_t kTick = 1000;
const std::string kDictionary =
    "nanolog-trace 1\n"
    "message 0 NOTICE 1 \"calls.cc\" \"%d of int\"\n"
    "message 1 ERROR 2 \"calls.cc\" \"%u of unsigned\"\n"
    "message 2 DEBUG 3 \"calls.cc\" \"%ld of long\"\n"
    "message 3 WARNING 4 \"calls.cc\" \"%lu of unsigned long\"\n"
    "message 4 NOTICE 5 \"calls.cc\" \"%*.*d of width and precision\"\n"
    "message 5 NOTICE 6 \"calls.cc\" \"%s of text\"\n"
    "message 6 NOTICE 7 \"calls.cc\" \"%s%s of two texts\"\n"
    "message 7 NOTICE 8 \"calls.cc\" \"of nothing\"\n";

const std::uint8_t *bytes_of(const std::string &text) { return reinterpret_cast<const std::uint8_t *>(text.data()); }

nanolog_arg number(std::uint8_t tag, std::uint64_t word) { return {tag, word, nullptr, 0}; }
nanolog_arg signed_of(std::int64_t number) { return {NANOLOG_SIGNED, static_cast<std::uint64_t>(number), nullptr, 0}; }
nanolog_arg unsigned_of(std::uint64_t number) { return {NANOLOG_UNSIGNED, number, nullptr, 0}; }
nanolog_arg text_of(const std::string &text) { return {NANOLOG_TEXT, 0, bytes_of(text), text.size()}; }

struct Ends {
    void *session = nullptr;
    void *consumer = nullptr;

    explicit Ends(std::uint64_t ring = 1024, std::uint32_t writers = 3) {
        open(kDictionary, ring, writers, kTick, 5, 1000000000);
    }
    Ends(const std::string &dictionary, std::uint64_t tick, std::uint64_t nanos, std::uint64_t rate) {
        open(dictionary, 1024, 1, tick, nanos, rate);
    }
    ~Ends() {
        nanolog_free(session);
        nanolog_free(consumer);
    }
    Ends(const Ends &) = delete;
    Ends &operator=(const Ends &) = delete;

    void *writer() {
        void *writer = nullptr;
        CHECK(nanolog_writer(&session, &writer) == NANOLOG_OK && writer != nullptr);
        return writer;
    }

   private:
    void open(const std::string &dictionary, std::uint64_t ring, std::uint32_t writers, std::uint64_t tick,
              std::uint64_t nanos, std::uint64_t rate) {
        std::uint64_t line = 77;
        CHECK(nanolog_open(bytes_of(dictionary), dictionary.size(), ring, writers, 4096, tick, nanos, rate, &session,
                           &consumer, &line) == NANOLOG_OK);
        CHECK(session != nullptr && consumer != nullptr && line == 77);
    }
};

void write_file(const char *name, const std::string &all) {
    std::FILE *const file = std::fopen(name, "w");
    CHECK(file != nullptr && std::fwrite(all.data(), 1, all.size(), file) == all.size() && std::fclose(file) == 0);
}

std::int32_t log(void *&writer, std::uint64_t stamp, std::uint32_t id, std::initializer_list<nanolog_arg> args) {
    std::uint64_t need = 88, room = 99;
    const std::int32_t answer = nanolog_log(&writer, stamp, id, args.begin(), args.size(), &need, &room);
    CHECK(answer == NANOLOG_FULL || (need == 88 && room == 99));
    return answer;
}

// ---- nanolog_open

std::int32_t open(const std::string &dictionary, std::uint64_t ring, std::uint32_t writers, std::uint32_t batch,
                  std::uint64_t rate, std::uint64_t *line) {
    void *session = nullptr, *consumer = nullptr;
    const std::int32_t answer = nanolog_open(bytes_of(dictionary), dictionary.size(), ring, writers, batch, kTick, 5,
                                             rate, &session, &consumer, line);
    CHECK((answer == NANOLOG_OK) == (session != nullptr) && (answer == NANOLOG_OK) == (consumer != nullptr));
    nanolog_free(consumer);
    nanolog_free(session);
    return answer;
}

void refuse_dictionary(const std::string &dictionary, std::uint64_t wanted) {
    std::uint64_t line = 77;
    CHECK(open(dictionary, 1024, 1, 1, 1, &line) == NANOLOG_BAD_DICTIONARY);
    if (line != wanted)
        std::fprintf(stderr, "line %llu of %s\n", static_cast<unsigned long long>(line), dictionary.c_str());
    CHECK(line == wanted);
    // A number that is out of its range goes first.
    line = 77;
    CHECK(open(dictionary, 1, 1, 1, 1, &line) == NANOLOG_OUT_OF_RANGE && line == 77);
}

void opening() {
    std::uint64_t line = 77;
    for (const std::uint64_t ring : {0ull, 1ull, 1023ull, 1048577ull, 1ull << 32, ~0ull}) {
        CHECK(open(kDictionary, ring, 1, 1, 1, &line) == NANOLOG_OUT_OF_RANGE);
    }
    for (const std::uint32_t writers : {0u, 1025u, 65536u, 65537u, ~0u}) {
        CHECK(open(kDictionary, 1024, writers, 1, 1, &line) == NANOLOG_OUT_OF_RANGE);
    }
    // All rings together have 67,108,864 words at most.
    const std::pair<std::uint64_t, std::uint32_t> too_many[] = {
        {65537, 1024}, {1048576, 65}, {131073, 512}, {1048576, 1024}};
    for (const auto &[ring, writers] : too_many) {
        CHECK(open(kDictionary, ring, writers, 1, 1, &line) == NANOLOG_OUT_OF_RANGE);
    }
    CHECK(open(kDictionary, 65536, 1024, 1, 1, &line) == NANOLOG_OK);
    for (const std::uint32_t batch : {0u, 65537u, ~0u}) {
        CHECK(open(kDictionary, 1024, 1, batch, 1, &line) == NANOLOG_OUT_OF_RANGE);
    }
    CHECK(open(kDictionary, 1024, 1, 1, 0, &line) == NANOLOG_OUT_OF_RANGE);
    CHECK(open(kDictionary, 1024, 1, 1, 1, &line) == NANOLOG_OK);
    CHECK(open(kDictionary, 1048576, 1, 65536, ~0ull, &line) == NANOLOG_OK);
    CHECK(open(kDictionary, 1024, 1024, 1, 1, &line) == NANOLOG_OK);
    CHECK(open("nanolog-trace 1\n", 1024, 1, 1, 1, &line) == NANOLOG_OK);
    CHECK(line == 77);

    const std::string first = "nanolog-trace 1\n";
    refuse_dictionary("", 1);
    refuse_dictionary("nanolog-trace 1", 1);
    refuse_dictionary("nanolog-trace 2\n", 1);
    refuse_dictionary("\n", 1);
    refuse_dictionary(first + "message 1 NOTICE 1 \"f\" \"x\"\n", 2);
    refuse_dictionary(first + "message 0 NOTE 1 \"f\" \"x\"\n", 2);
    refuse_dictionary(first + "message 0 NOTICE 1 \"\" \"x\"\n", 2);
    refuse_dictionary(first + "message 0 NOTICE 1 \"f\" \"%f\"\n", 2);
    refuse_dictionary(first + "message 0 NOTICE 1 \"f\" \"x\"", 2);
    refuse_dictionary(first + "message 0 NOTICE 1 \"f\" \"x\"\nmessage 1 NOTICE 1 \"f\" \"x\"\n", 3);
    refuse_dictionary(kDictionary + "\n", 10);
    refuse_dictionary(kDictionary + "clock 1 2 3\n", 10);
    std::string many = first;
    for (int id = 0; id <= 65536; id++) {
        many += "message " + std::to_string(id) + " NOTICE " + std::to_string(id) + " \"f\" \"x\"\n";
    }
    refuse_dictionary(many, 65538);
    many.resize(many.rfind("message"));
    CHECK(open(many, 1024, 1, 1, 1, &line) == NANOLOG_OK);

    void *session = nullptr, *consumer = nullptr;
    CHECK(nanolog_open(nullptr, 0, 1024, 1, 1, 0, 0, 1, &session, &consumer, &line) == NANOLOG_BAD_DICTIONARY);
    CHECK(line == 1 && session == nullptr && consumer == nullptr);
    Ends ends;
    CHECK(nanolog_open(nullptr, 0, 0, 1, 1, 0, 0, 1, &ends.session, &consumer, &line) == NANOLOG_BAD_HANDLE);
    CHECK(nanolog_open(nullptr, 0, 0, 1, 1, 0, 0, 1, &session, &ends.consumer, &line) == NANOLOG_BAD_HANDLE);
    CHECK(session == nullptr && consumer == nullptr);
}

// ---- nanolog_writer, nanolog_end

void writers() {
    Ends ends;
    void *null = nullptr, *one = ends.writer(), *two = ends.writer();
    CHECK(nanolog_writer(&null, &null) == NANOLOG_BAD_HANDLE);
    CHECK(nanolog_writer(&ends.consumer, &null) == NANOLOG_BAD_HANDLE);
    CHECK(nanolog_writer(&one, &null) == NANOLOG_BAD_HANDLE);
    CHECK(nanolog_writer(&ends.session, &two) == NANOLOG_BAD_HANDLE);
    CHECK(null == nullptr);
    void *three = ends.writer();
    CHECK(nanolog_writer(&ends.session, &null) == NANOLOG_NO_WRITER && null == nullptr);
    CHECK(nanolog_end(&null) == NANOLOG_BAD_HANDLE);
    CHECK(nanolog_end(&ends.consumer) == NANOLOG_BAD_HANDLE);
    CHECK(nanolog_end(&one) == NANOLOG_BAD_HANDLE);
    CHECK(nanolog_end(&ends.session) == NANOLOG_OK);
    CHECK(nanolog_end(&ends.session) == NANOLOG_OK);
    CHECK(nanolog_writer(&ends.session, &null) == NANOLOG_NO_WRITER && null == nullptr);
    for (void *writer : {one, two, three}) nanolog_free(writer);

    Ends ended;
    void *only = ended.writer();
    CHECK(nanolog_end(&ended.session) == NANOLOG_OK);
    CHECK(nanolog_writer(&ended.session, &null) == NANOLOG_NO_WRITER && null == nullptr);
    CHECK(log(only, kTick, 7, {}) == NANOLOG_OK);
    nanolog_free(only);
    nanolog_free(nullptr);
}

// ---- nanolog_log, nanolog_finish

// That a message takes these numbers as its argument, and neither their neighbours nor other kinds.
void one_type(void *&writer, std::uint32_t id, std::uint8_t tag, std::initializer_list<std::uint64_t> taken,
              std::initializer_list<std::uint64_t> refused) {
    for (const std::uint64_t word : taken) CHECK(log(writer, kTick, id, {number(tag, word)}) == NANOLOG_OK);
    for (const std::uint64_t word : refused) CHECK(log(writer, kTick, id, {number(tag, word)}) == NANOLOG_MISFIT);
    for (const std::uint8_t other : {0, 1, 2, 3, 255}) {
        if (other != tag) CHECK(log(writer, kTick, id, {number(other, 5)}) == NANOLOG_MISFIT);
    }
    CHECK(log(writer, kTick, id, {}) == NANOLOG_MISFIT);
    CHECK(log(writer, kTick, id, {number(tag, 5), number(tag, 5)}) == NANOLOG_MISFIT);
}

std::uint64_t word(std::int64_t number) { return static_cast<std::uint64_t>(number); }

void logging() {
    Ends ends(4096);
    void *writer = ends.writer(), *null = nullptr;
    for (void **other : {&null, &ends.session, &ends.consumer}) {
        CHECK(log(*other, kTick, 7, {}) == NANOLOG_BAD_HANDLE);
        CHECK(nanolog_finish(other) == NANOLOG_BAD_HANDLE);
    }
    for (const std::uint32_t id : {8u, 9u, 65535u, 65536u, ~0u}) CHECK(log(writer, kTick, id, {}) == NANOLOG_MISFIT);
    one_type(writer, 0, NANOLOG_SIGNED, {0, word(-1), word(INT32_MAX), word(INT32_MIN)},
             {word(INT32_MAX + 1ll), word(INT32_MIN - 1ll), word(INT64_MIN)});
    one_type(writer, 1, NANOLOG_UNSIGNED, {0, UINT32_MAX}, {UINT32_MAX + 1ull, UINT64_MAX});
    one_type(writer, 2, NANOLOG_SIGNED, {0, word(INT64_MAX), word(INT64_MIN)}, {});
    one_type(writer, 3, NANOLOG_UNSIGNED, {0, UINT64_MAX}, {});
    for (const std::int64_t width : {0, 4095, -4095}) {
        CHECK(log(writer, kTick, 4, {signed_of(width), signed_of(1), signed_of(2)}) == NANOLOG_OK);
    }
    for (const std::int64_t width : {4096, -4096, INT_MAX}) {
        CHECK(log(writer, kTick, 4, {signed_of(width), signed_of(1), signed_of(2)}) == NANOLOG_MISFIT);
    }
    for (const std::int64_t precision : {0, 4095, -1, INT_MIN}) {
        CHECK(log(writer, kTick, 4, {signed_of(1), signed_of(precision), signed_of(2)}) == NANOLOG_OK);
    }
    for (const std::int64_t precision : {4096ll, INT_MIN - 1ll}) {
        CHECK(log(writer, kTick, 4, {signed_of(1), signed_of(precision), signed_of(2)}) == NANOLOG_MISFIT);
    }
    CHECK(log(writer, kTick, 4, {signed_of(1), signed_of(1), unsigned_of(2)}) == NANOLOG_MISFIT);

    const std::string most(4000, 'x'), more(4001, 'x'), nul("a\0b", 3), ends_in_nul("ab\0", 3), half(2041, 'y');
    for (const std::string &text : {std::string(), std::string("x"), most}) {
        CHECK(log(writer, kTick, 5, {text_of(text)}) == NANOLOG_OK);
    }
    CHECK(log(writer, kTick, 5, {number(NANOLOG_TEXT, 0)}) == NANOLOG_OK);
    for (const std::string &text : {more, nul, ends_in_nul}) {
        CHECK(log(writer, kTick, 5, {text_of(text)}) == NANOLOG_MISFIT);
    }
    for (const nanolog_arg &arg : {signed_of(5), unsigned_of(5), number(3, 5)}) {
        CHECK(log(writer, kTick, 5, {arg}) == NANOLOG_MISFIT);
    }
    // Two words, and for each text one and its own: the most is 512.
    const std::string whole(254 * 8, 'z');
    CHECK(log(writer, kTick, 6, {text_of(whole), text_of(whole)}) == NANOLOG_OK);
    CHECK(log(writer, kTick, 6, {text_of(whole), text_of(half)}) == NANOLOG_TOO_LONG);
    CHECK(log(writer, kTick, 6, {text_of(most), text_of(most)}) == NANOLOG_TOO_LONG);
    CHECK(log(writer, kTick - 1, 6, {text_of(most), text_of(most)}) == NANOLOG_EARLY);
    CHECK(log(writer, kTick - 1, 6, {text_of(more), text_of(most)}) == NANOLOG_MISFIT);

    // Stamps: none below the tick, and none below the last one that was logged.
    void *second = ends.writer();
    for (const std::uint64_t stamp : {std::uint64_t{0}, kTick - 1}) CHECK(log(second, stamp, 7, {}) == NANOLOG_EARLY);
    CHECK(log(second, kTick + 5, 7, {}) == NANOLOG_OK && log(second, kTick + 5, 7, {}) == NANOLOG_OK);
    CHECK(log(second, kTick + 4, 7, {}) == NANOLOG_EARLY);
    CHECK(log(second, kTick + 9, 8, {}) == NANOLOG_MISFIT && log(second, kTick + 5, 7, {}) == NANOLOG_OK);
    CHECK(log(second, UINT64_MAX, 7, {}) == NANOLOG_OK && log(second, UINT64_MAX - 1, 7, {}) == NANOLOG_EARLY);

    CHECK(nanolog_finish(&writer) == NANOLOG_OK && nanolog_finish(&writer) == NANOLOG_FINISHED);
    CHECK(log(writer, kTick, 7, {}) == NANOLOG_FINISHED && log(writer, 0, 99, {}) == NANOLOG_FINISHED);
    nanolog_free(writer);
    nanolog_free(second);
}

// A ring of 1,024 words takes 341 frames of three, and has one place left, behind which the next one would not end.
void filling() {
    Ends ends(1024, 1);
    void *writer = ends.writer();
    for (int turn = 0; turn < 3; turn++) {
        int logged = 0;
        while (log(writer, kTick, 0, {signed_of(logged)}) == NANOLOG_OK) logged++;
        CHECK(turn > 0 || logged == 341);
        std::uint64_t need = 0, room = 0;
        const nanolog_arg arg = signed_of(5);
        CHECK(nanolog_log(&writer, kTick, 0, &arg, 1, &need, &room) == NANOLOG_FULL && need > room);
        CHECK(turn > 0 || (need == 4 && room == 1));
        CHECK(log(writer, kTick, 8, {}) == NANOLOG_MISFIT);
        std::uint8_t bytes[65536];
        while (nanolog_pump(&ends.consumer, bytes, sizeof bytes) > 0) {
        }
        CHECK(log(writer, kTick, 0, {signed_of(turn)}) == NANOLOG_OK);
    }
    nanolog_free(writer);
}

// ---- nanolog_pump

// Logs, and pumps everything with so much room at a time.
std::string pump_all(std::size_t room) {
    Ends ends;
    std::string all;
    std::vector<std::uint8_t> bytes(room);
    const auto pump = [&] {
        for (;;) {
            const std::int64_t answer = nanolog_pump(&ends.consumer, bytes.data(), room);
            if (answer <= 0) return answer;
            CHECK(static_cast<std::size_t>(answer) <= room);
            all.append(reinterpret_cast<const char *>(bytes.data()), static_cast<std::size_t>(answer));
        }
    };
    void *one = ends.writer(), *two = ends.writer(), *null = nullptr;
    CHECK(nanolog_pump(&null, bytes.data(), room) == NANOLOG_BAD_HANDLE);
    CHECK(nanolog_pump(&ends.session, bytes.data(), room) == NANOLOG_BAD_HANDLE);
    CHECK(nanolog_pump(&one, bytes.data(), room) == NANOLOG_BAD_HANDLE);
    CHECK(nanolog_pump(&ends.consumer, bytes.data(), 0) == NANOLOG_OUT_OF_RANGE);
    CHECK(nanolog_pump(&ends.consumer, nullptr, 0) == NANOLOG_OUT_OF_RANGE);
    CHECK(pump() == 0 && all.size() == kHeader);
    CHECK(log(one, kTick + 1, 0, {signed_of(-5)}) == NANOLOG_OK);
    CHECK(log(two, kTick + 2, 5, {text_of("a piece")}) == NANOLOG_OK);
    CHECK(log(one, kTick + 3, 4, {signed_of(6), signed_of(3), signed_of(7)}) == NANOLOG_OK);
    CHECK(pump() == 0);
    CHECK(nanolog_finish(&one) == NANOLOG_OK && pump() == 0);
    CHECK(nanolog_end(&ends.session) == NANOLOG_OK && pump() == 0);
    CHECK(log(two, kTick + 4, 7, {}) == NANOLOG_OK);
    CHECK(nanolog_finish(&two) == NANOLOG_OK);
    CHECK(pump() == NANOLOG_AT_END && pump() == NANOLOG_AT_END);
    CHECK(nanolog_pump(&ends.consumer, bytes.data(), 0) == NANOLOG_OUT_OF_RANGE);
    nanolog_free(one);
    nanolog_free(two);
    return all;
}

void pumping() {
    const std::string all = pump_all(1 << 20);
    write_file("calls.log", all);
    for (const std::size_t room : {1, 2, 3, 7, 31, 64}) CHECK(pump_all(room) == all);

    // Handles are given up in any order, and unfinished.
    for (int order = 0; order < 6; order++) {
        void *session = nullptr, *consumer = nullptr, *writer = nullptr;
        std::uint64_t line = 0;
        CHECK(nanolog_open(bytes_of(kDictionary), kDictionary.size(), 1024, 2, 1, 0, 0, 1, &session, &consumer,
                           &line) == 0);
        CHECK(nanolog_writer(&session, &writer) == NANOLOG_OK && log(writer, 5, 7, {}) == NANOLOG_OK);
        void *const handles[] = {session, consumer, writer};
        const int first = order % 3, second = (first + 1 + order / 3) % 3;
        nanolog_free(handles[first]);
        nanolog_free(handles[second]);
        nanolog_free(handles[3 - first - second]);
    }
}

// A log of 1,024 writers, of which each makes a call.
void many_writers() {
    Ends ends(1024, 1024);
    std::vector<void *> writers;
    std::string all;
    const auto pump = [&] {
        std::uint8_t bytes[4096];
        std::int64_t answer = 0;
        while ((answer = nanolog_pump(&ends.consumer, bytes, sizeof bytes)) > 0) {
            all.append(reinterpret_cast<const char *>(bytes), static_cast<std::size_t>(answer));
        }
        return answer;
    };
    for (int number = 0; number < 1024; number++) {
        writers.push_back(ends.writer());
        CHECK(log(writers.back(), kTick + static_cast<std::uint64_t>(number), 0, {signed_of(number)}) == NANOLOG_OK);
    }
    void *null = nullptr;
    CHECK(nanolog_writer(&ends.session, &null) == NANOLOG_NO_WRITER && null == nullptr && pump() == 0);
    for (void *&writer : writers) {
        CHECK(nanolog_finish(&writer) == NANOLOG_OK);
        nanolog_free(writer);
    }
    CHECK(nanolog_end(&ends.session) == NANOLOG_OK && pump() == NANOLOG_AT_END);
    std::vector<int> extents(1024), marks(1024);
    for (const Block &block : blocks_of(all)) {
        if (block.tag == kExtent) extents[number_at(all, block.at + 1, 2)]++;
        if (block.tag == kCloseMark) marks[number_at(all, block.at + 1, 2)]++;
    }
    CHECK(number_at(all, 5, 2) == 1024 && extents == std::vector<int>(1024, 1) && marks == extents);
    write_file("writers.log", all);
}

// ---- nanolog_clock

std::int32_t tell(void *&consumer, std::uint64_t tick, std::uint64_t rate = 1000000000) {
    return nanolog_clock(&consumer, tick, 7, rate);
}

// Each answer, in the order in which they go.
void telling() {
    Ends ends;
    void *null = nullptr, *writer = ends.writer();
    std::uint8_t bytes[4096];
    const auto pump = [&] {
        while (nanolog_pump(&ends.consumer, bytes, sizeof bytes) > 0) {
        }
    };
    for (void **other : {&null, &ends.session, &writer}) {
        CHECK(tell(*other, kTick + 1) == NANOLOG_BAD_HANDLE && tell(*other, kTick, 0) == NANOLOG_BAD_HANDLE);
    }
    for (const std::uint64_t tick : {std::uint64_t{0}, kTick - 1, kTick}) {
        CHECK(tell(ends.consumer, tick) == NANOLOG_OUT_OF_RANGE);
    }
    CHECK(tell(ends.consumer, kTick + 1, 0) == NANOLOG_OUT_OF_RANGE);
    // What was logged but not taken reaches nothing.
    CHECK(log(writer, kTick + 10, 7, {}) == NANOLOG_OK && tell(ends.consumer, kTick + 3) == NANOLOG_OK);
    pump();
    CHECK(tell(ends.consumer, kTick + 4) == NANOLOG_REACHED && tell(ends.consumer, kTick + 10) == NANOLOG_REACHED);
    CHECK(tell(ends.consumer, kTick + 10, 0) == NANOLOG_OUT_OF_RANGE);
    for (const std::uint64_t tick : {std::uint64_t{0}, kTick + 2, kTick + 3}) {
        CHECK(tell(ends.consumer, tick) == NANOLOG_OUT_OF_RANGE);
    }
    CHECK(tell(ends.consumer, kTick + 11) == NANOLOG_OK && tell(ends.consumer, kTick + 11) == NANOLOG_OUT_OF_RANGE);
    // 255 clocks, and one more.
    for (std::uint64_t number = 3; number < 255; number++) {
        CHECK(tell(ends.consumer, kTick + 10 * number, number % 2 == 0 ? 1 : ~0ull) == NANOLOG_OK);
    }
    CHECK(log(writer, ~0ull - 1, 7, {}) == NANOLOG_OK);
    pump();
    CHECK(tell(ends.consumer, ~0ull - 1) == NANOLOG_REACHED && tell(ends.consumer, ~0ull) == NANOLOG_OK);
    CHECK(tell(ends.consumer, ~0ull) == NANOLOG_OUT_OF_RANGE);
    nanolog_free(writer);

    Ends full;
    for (std::uint64_t number = 1; number <= 255; number++) CHECK(tell(full.consumer, kTick + number) == NANOLOG_OK);
    CHECK(tell(full.consumer, kTick + 256) == NANOLOG_OUT_OF_RANGE);
    void *other = full.writer();
    CHECK(log(other, kTick + 300, 7, {}) == NANOLOG_OK);
    while (nanolog_pump(&full.consumer, bytes, sizeof bytes) > 0) {
    }
    CHECK(tell(full.consumer, kTick + 256) == NANOLOG_OUT_OF_RANGE);
    nanolog_free(other);
}

// A log of a call that is read by the second of two clocks. What was refused leaves no trace in it.
std::string log_of_two(bool are_refused) {
    const std::string dictionary = "nanolog-trace 1\nmessage 0 NOTICE 12 \"srv.cc\" \"x=%d\"\n";
    Ends ends(dictionary, 1000, 1514764800000000000, 2000000000);
    const auto refuse = [&] {
        if (!are_refused) return;
        CHECK(nanolog_clock(&ends.consumer, 3000, 5, 0) == NANOLOG_OUT_OF_RANGE);
        CHECK(nanolog_clock(&ends.consumer, 1000, 5, 1) == NANOLOG_OUT_OF_RANGE);
    };
    refuse();
    CHECK(nanolog_clock(&ends.consumer, 2000, 1514764801000000000, 1000000000) == NANOLOG_OK);
    void *writer = ends.writer();
    CHECK(log(writer, 2003, 0, {signed_of(7)}) == NANOLOG_OK && nanolog_finish(&writer) == NANOLOG_OK);
    CHECK(nanolog_end(&ends.session) == NANOLOG_OK);
    nanolog_free(writer);
    std::string all;
    std::uint8_t byte = 0;
    for (refuse(); nanolog_pump(&ends.consumer, &byte, 1) == 1; refuse()) all += static_cast<char>(byte);
    CHECK(nanolog_pump(&ends.consumer, &byte, 1) == NANOLOG_AT_END);
    if (are_refused) CHECK(nanolog_clock(&ends.consumer, 2003, 5, 1) == NANOLOG_REACHED);
    return all;
}

void two_clocks() {
    const std::string all = log_of_two(false);
    CHECK(all == log_of_two(true) && all.size() == 97);
    CHECK(number_at(all, 5, 2) == 1 && number_at(all, 7, 8) == 1000);
    CHECK(number_at(all, 15, 8) == 1514764800000000000 && number_at(all, 23, 8) == 2000000000);
    const std::vector<Block> blocks = blocks_of(all);
    const Block wanted[] = {{kClock, 31, 25}, {kFragment, 56, 26}, {kExtent, 82, 12}, {kCloseMark, 94, 3}};
    CHECK(blocks.size() == 4);
    for (std::size_t at = 0; at < 4; at++) {
        CHECK(blocks[at].tag == wanted[at].tag && blocks[at].at == wanted[at].at && blocks[at].len == wanted[at].len);
    }
    CHECK(number_at(all, 32, 8) == 2000 && number_at(all, 40, 8) == 1514764801000000000);
    CHECK(number_at(all, 48, 8) == 1000000000);
    write_file("clocks.log", all);
}

// ---- nanolog_next_part

// All that is given up to this answer.
std::string given(void *&consumer, std::int64_t wanted) {
    std::string all;
    std::uint8_t bytes[7];
    std::int64_t answer;
    while ((answer = nanolog_pump(&consumer, bytes, sizeof bytes)) > 0) {
        all.append(reinterpret_cast<const char *>(bytes), static_cast<std::size_t>(answer));
    }
    CHECK(answer == wanted);
    return all;
}

// The close marks of the first writers.
std::string marks(std::size_t writers) {
    std::string all;
    for (std::size_t writer = 0; writer < writers; writer++) {
        all += {'\4', static_cast<char>(writer), '\0'};
    }
    return all;
}

bool ends_with(const std::string &all, const std::string &back) {
    return all.size() >= back.size() && all.compare(all.size() - back.size(), back.size(), back) == 0;
}

void parting() {
    constexpr std::size_t header = 31;
    Ends ends;
    void *null = nullptr, *one = ends.writer(), *two = ends.writer();
    for (void **other : {&null, &ends.session, &one}) CHECK(nanolog_next_part(other) == NANOLOG_BAD_HANDLE);
    CHECK(log(one, kTick + 1, 0, {signed_of(1)}) == NANOLOG_OK);
    std::string first = given(ends.consumer, 0);
    // What is logged by now and wasn't taken belongs to the next part, as what is logged while this one ends.
    CHECK(log(two, kTick + 2, 0, {signed_of(2)}) == NANOLOG_OK);
    CHECK(nanolog_next_part(&ends.consumer) == NANOLOG_OK);
    for (int turn = 0; turn < 3; turn++) CHECK(nanolog_next_part(&ends.consumer) == NANOLOG_PART_ENDS);
    CHECK(log(one, kTick + 3, 0, {signed_of(3)}) == NANOLOG_OK);
    CHECK(nanolog_pump(&ends.consumer, nullptr, 0) == NANOLOG_OUT_OF_RANGE);
    first += given(ends.consumer, NANOLOG_PART_OVER);
    CHECK(ends_with(first, marks(3)) && !ends_with(first, marks(3) + marks(3)));
    write_file("part1.log", first);
    // A call of the part before has reached this clock.
    CHECK(tell(ends.consumer, kTick + 1) == NANOLOG_REACHED && tell(ends.consumer, kTick + 4) == NANOLOG_OK);
    const std::string second = given(ends.consumer, 0);
    CHECK(second.compare(0, header, first, 0, header) == 0);
    CHECK(nanolog_finish(&two) == NANOLOG_OK);
    const std::string closed = given(ends.consumer, 0);
    CHECK(closed == marks(2).substr(3));
    // A writer that is finished has its mark in each part that follows.
    CHECK(nanolog_next_part(&ends.consumer) == NANOLOG_OK);
    const std::string rest = given(ends.consumer, NANOLOG_PART_OVER);
    CHECK(rest == marks(1) + marks(3).substr(6));
    write_file("part2.log", second + closed + rest);
    CHECK(nanolog_finish(&one) == NANOLOG_OK && nanolog_end(&ends.session) == NANOLOG_OK);
    const std::string third = given(ends.consumer, NANOLOG_AT_END);
    CHECK(third.size() == header + 9 && third.compare(0, header, first, 0, header) == 0);
    for (int turn = 0; turn < 3; turn++) {
        CHECK(nanolog_next_part(&ends.consumer) == NANOLOG_NO_PART);
        CHECK(given(ends.consumer, NANOLOG_AT_END).empty());
    }
    nanolog_free(one);
    nanolog_free(two);

    // A part in which nothing was logged, and one that ends when all writers have finished.
    Ends empty;
    CHECK(nanolog_next_part(&empty.consumer) == NANOLOG_OK);
    CHECK(given(empty.consumer, NANOLOG_PART_OVER) == first.substr(0, header) + marks(3));
    CHECK(nanolog_end(&empty.session) == NANOLOG_OK && nanolog_next_part(&empty.consumer) == NANOLOG_OK);
    CHECK(given(empty.consumer, NANOLOG_PART_OVER) == first.substr(0, header) + marks(3));
    CHECK(given(empty.consumer, NANOLOG_AT_END) == first.substr(0, header) + marks(3));
}

// How much memory is asked for while parts end and begin.
void parting_without_memory() {
    Ends ends(1024, 64);
    const long before = requests;
    for (int turn = 0; turn < 100; turn++) {
        CHECK(nanolog_next_part(&ends.consumer) == NANOLOG_OK);
        std::uint8_t bytes[64];
        std::int64_t answer;
        while ((answer = nanolog_pump(&ends.consumer, bytes, sizeof bytes)) > 0) {
        }
        CHECK(answer == NANOLOG_PART_OVER);
    }
    CHECK(requests == before);
}

// A clock that no call is read by isn't in the log.
void no_clock() {
    Ends ends(1024, 1);
    CHECK(tell(ends.consumer, kTick + 5) == NANOLOG_OK);
    void *writer = ends.writer();
    CHECK(log(writer, kTick + 4, 7, {}) == NANOLOG_OK && nanolog_finish(&writer) == NANOLOG_OK);
    std::string all;
    std::uint8_t byte = 0;
    while (nanolog_pump(&ends.consumer, &byte, 1) == 1) all += static_cast<char>(byte);
    for (const Block &block : blocks_of(all)) CHECK(block.tag != kClock);
    nanolog_free(writer);
}

// ---- memory

// Opens a session, takes a writer and logs, where so many pieces of memory are given and no more. It answers whether
// that was enough, and sets `open` to whether there was enough for the session.
bool make_in(int pieces, bool &open) {
    pieces_left = pieces;
    void *session = nullptr, *consumer = nullptr, *writer = nullptr;
    std::uint64_t line = 77;
    const std::int32_t opened =
        nanolog_open(bytes_of(kDictionary), kDictionary.size(), 1024, 2, 1, kTick, 0, 1, &session, &consumer, &line);
    open = opened == NANOLOG_OK;
    CHECK(open || (opened == NANOLOG_NO_MEMORY && session == nullptr && consumer == nullptr));
    CHECK(line == 77);
    bool is_enough = false;
    if (open) {
        const std::int32_t given = nanolog_writer(&session, &writer);
        is_enough = given == NANOLOG_OK;
        CHECK(is_enough || (given == NANOLOG_NO_MEMORY && writer == nullptr));
        // What was refused is to be had when there is memory. Nothing else takes any.
        pieces_left = 1;
        CHECK(is_enough || nanolog_writer(&session, &writer) == NANOLOG_OK);
        pieces_left = 0;
        CHECK(log(writer, kTick, 7, {}) == NANOLOG_OK && nanolog_finish(&writer) == NANOLOG_OK);
        CHECK(nanolog_end(&session) == NANOLOG_OK && nanolog_text_limit(&session, 5, 0) == NANOLOG_MAX_TEXT);
        std::uint8_t bytes[4096];
        std::int64_t answer = 1;
        while (answer > 0) answer = nanolog_pump(&consumer, bytes, sizeof bytes);
        CHECK(answer == NANOLOG_AT_END);
    }
    pieces_left = INT_MAX;
    nanolog_free(writer);
    nanolog_free(consumer);
    nanolog_free(session);
    return is_enough;
}

void memory() {
    bool open = false;
    int pieces = 0, opened_in = 0;
    for (; !make_in(pieces, open); pieces++) {
        if (!open) opened_in = pieces + 1;
    }
    CHECK(opened_in > 5 && pieces == opened_in + 1);
    std::printf("%d pieces of memory, and one for a writer\n", opened_in);
}

// Makes each call, also those that are refused, and the ring full and empty again: none of them asks for memory, or
// gives any back.
void use(void *&session, void *&consumer, void *&writer, void *&idle) {
    const long before = requests;
    std::int32_t answer = NANOLOG_OK;
    std::uint8_t bytes[4096];
    for (int turn = 0; turn < 2; turn++) {
        while (answer == NANOLOG_OK) answer = log(writer, kTick, 0, {signed_of(turn)});
        CHECK(answer == NANOLOG_FULL && log(writer, kTick, 0, {}) == NANOLOG_MISFIT);
        CHECK(log(writer, 0, 7, {}) == NANOLOG_EARLY && log(session, kTick, 7, {}) == NANOLOG_BAD_HANDLE);
        CHECK(tell(consumer, kTick) == NANOLOG_OUT_OF_RANGE);
        while (nanolog_pump(&consumer, bytes, sizeof bytes) > 0) answer = NANOLOG_OK;
    }
    for (std::uint64_t number = 1; number <= 256; number++) {
        CHECK(tell(consumer, kTick + number) == (number <= 255 ? NANOLOG_OK : NANOLOG_OUT_OF_RANGE));
    }
    CHECK(log(writer, kTick + 1000, 7, {}) == NANOLOG_OK);
    CHECK(nanolog_pump(&consumer, bytes, 0) == NANOLOG_OUT_OF_RANGE);
    CHECK(nanolog_finish(&writer) == NANOLOG_OK && nanolog_finish(&writer) == NANOLOG_FINISHED);
    CHECK(nanolog_finish(&idle) == (idle == nullptr ? NANOLOG_BAD_HANDLE : NANOLOG_OK));
    CHECK(nanolog_text_limit(&session, 5, 0) == NANOLOG_MAX_TEXT && nanolog_version_1() == 1);
    CHECK(nanolog_end(&session) == NANOLOG_OK && nanolog_end(&session) == NANOLOG_OK);
    while (nanolog_pump(&consumer, bytes, sizeof bytes) > 0) {
    }
    CHECK(nanolog_pump(&consumer, bytes, sizeof bytes) == NANOLOG_AT_END);
    nanolog_free(nullptr);
    CHECK(requests == before);
}

// Opens a session, uses it or not, and gives up all its handles, in one of two orders. It answers how many pieces of
// memory are left of it.
long left_of(std::uint64_t ring, std::uint32_t writers, bool is_used, bool consumer_first) {
    const long before = pieces_held;
    {
        Ends ends(ring, writers);
        void *first = ends.writer(), *second = writers > 1 ? ends.writer() : nullptr;
        if (is_used) use(ends.session, ends.consumer, first, second);
        if (consumer_first) {
            nanolog_free(ends.consumer);
            ends.consumer = nullptr;
        }
        nanolog_free(second);
        nanolog_free(first);
    }
    return pieces_held - before;
}

// What is left of a session is its dictionary, whatever it was. What is refused leaves nothing.
void giving_up() {
    const long dictionary = left_of(1024, 1, false, false);
    CHECK(dictionary > 0);
    for (const std::uint32_t writers : {1u, 2u, 1024u}) {
        for (const bool is_used : {false, true}) {
            for (const bool consumer_first : {false, true}) {
                CHECK(left_of(8192, writers, is_used, consumer_first) == dictionary);
            }
        }
    }
    const long before = pieces_held;
    for (int turn = 0; turn < 1000; turn++) CHECK(left_of(1024, 2, turn % 2 == 0, turn % 3 == 0) == dictionary);
    CHECK(pieces_held == before + 1000 * dictionary);
    std::uint64_t line = 0;
    for (const std::string &text : {std::string(), kDictionary + "message 8 NOTICE 1 \"f\" \"%f\"\n"}) {
        CHECK(open(text, 1024, 1, 1, 1, &line) == NANOLOG_BAD_DICTIONARY);
        CHECK(open(text, 1, 1, 1, 1, &line) == NANOLOG_OUT_OF_RANGE);
    }
    CHECK(pieces_held == before + 1000 * dictionary);
    std::printf("%ld pieces are left of a session, its dictionary\n", dictionary);
}

}  // namespace

int main() {
    opening();
    writers();
    logging();
    filling();
    pumping();
    many_writers();
    telling();
    two_clocks();
    no_clock();
    parting();
    parting_without_memory();
    memory();
    giving_up();
    return 0;
}
