// How far texts are read, and how long calls are cut. The lines of texts.log are to be those of texts.expected.
#include <sys/mman.h>
#include <unistd.h>

#include <algorithm>
#include <cstring>
#include <nanolog.hpp>
#include <random>
#include <string>
#include <string_view>
#include <vector>

#include "check.hpp"

#define EXPECT(...) expected.add("", "NOTICE", __VA_ARGS__)

namespace {

// Memory behind which nothing can be read.
class Edge {
   public:
    Edge() {
        const long page = sysconf(_SC_PAGESIZE);
        readable_ = static_cast<std::size_t>(page) * (8192 / static_cast<std::size_t>(page) + 1);
        const std::size_t whole = readable_ + static_cast<std::size_t>(page);
        void *const memory = mmap(nullptr, whole, PROT_READ | PROT_WRITE, MAP_PRIVATE | MAP_ANONYMOUS, -1, 0);
        CHECK(memory != MAP_FAILED);
        bytes_ = static_cast<char *>(memory);
        std::memset(bytes_, 'x', readable_);
        CHECK(mprotect(bytes_ + readable_, static_cast<std::size_t>(page), PROT_NONE) == 0);
    }

    // The last bytes that can be read.
    const char *last(std::size_t count) const { return bytes_ + readable_ - count; }

    // The same with a NUL as the last one.
    const char *ended(std::size_t count) {
        bytes_[readable_ - 1] = 0;
        return last(count);
    }

   private:
    std::size_t readable_;
    char *bytes_;
};

std::string times(std::size_t count, const char *piece = "x") {
    std::string text;
    while (count-- != 0) text += piece;
    return text;
}

// Where a precision ends a text, nothing behind that is read.
void read(Expected &expected, std::uint64_t &cut) {
    const Edge edge;
    NANO_LOG(NOTICE, "four %.4s", edge.last(4));
    EXPECT("%s", "four xxxx");
    NANO_LOG(NOTICE, "none %.0s %.s %.*s", edge.last(0), edge.last(0), 0, edge.last(0));
    EXPECT("%s", "none   ");
    NANO_LOG(NOTICE, "five %8.5s|%-8.5s|%*.*s", edge.last(5), edge.last(5), 6, 5, edge.last(5));
    EXPECT("%s", "five    xxxxx|xxxxx   | xxxxx");
    NANO_LOG(NOTICE, "views %s %.9s %.*s", std::string_view(edge.last(3), 3), std::string_view(edge.last(4), 4), 9,
             std::string_view(edge.last(5), 5));
    EXPECT("%s", "views xxx xxxx xxxxx");
    NANO_LOG(NOTICE, "array %s", *reinterpret_cast<const char(*)[6]>(edge.last(6)));
    EXPECT("%s", "array xxxxxx");
    // A text has at most 4,000 bytes, and what isn't printed isn't lost.
    NANO_LOG(NOTICE, "%.4000s", edge.last(4000));
    EXPECT("%s", times(4000).c_str());
    NANO_LOG(NOTICE, "%.4001s", edge.last(4000));
    EXPECT("%s", times(4000).c_str());
    NANO_LOG(NOTICE, "%.4095s", edge.last(4000));
    EXPECT("%s", times(4000).c_str());
    NANO_LOG(NOTICE, "%.*s", 4000, edge.last(4000));
    EXPECT("%s", times(4000).c_str());
    NANO_LOG(NOTICE, "%.*s", 4095, edge.last(4000));
    EXPECT("%s", times(4000).c_str());
    // A precision in front of a text may be as great as it likes.
    NANO_LOG(NOTICE, "%.*s %.*s", 4096, edge.last(4000), 2147483647, "short");
    EXPECT("%s short", times(4000).c_str());
    // One byte more is read where nothing but a NUL ends the text.
    NANO_LOG(NOTICE, "%s", edge.last(4001));
    EXPECT("%s...", times(3997).c_str());
    NANO_LOG(NOTICE, "%.*s", -1, edge.last(4001));
    EXPECT("%s...", times(3997).c_str());
    cut += 2;
}

void read_ended(Expected &expected, std::uint64_t &cut) {
    Edge edge;
    NANO_LOG(NOTICE, "%s %.9s %.*s", edge.ended(4), edge.ended(5), 9, edge.ended(6));
    EXPECT("%s", "xxx xxxx xxxxx");
    NANO_LOG(NOTICE, "%s", edge.ended(4001));
    EXPECT("%s", times(4000).c_str());
    NANO_LOG(NOTICE, "%s", edge.ended(4002));
    EXPECT("%s...", times(3997).c_str());
    cut++;
    // A NUL inside a string ends it, and is counted where more would be printed.
    const std::string_view view("ab\0cd", 5);
    NANO_LOG(NOTICE, "%s|%.2s|%.*s|%.3s|%.*s", view, view, 2, view, view, 3, view);
    EXPECT("%s", "ab|ab|ab|ab|ab");
    cut += 3;
    const char *const null = nullptr;
    NANO_LOG(NOTICE, "%s %.3s %.6s %.*s %8s", null, null, null, 4, null, null);
    EXPECT("%s", "(null) (nu (null) (nul   (null)");
}

// ---- cutting

// Cuts texts as they are to be cut, in the simplest way: from the greatest length down.
std::vector<std::string> cut_as_wanted(std::vector<std::string> texts, std::size_t numbers, std::uint64_t &cut) {
    std::size_t most = 4000;
    for (;; most--) {
        std::size_t words = 2 + numbers + texts.size();
        for (const std::string &text : texts) words += (std::min(text.size(), most) + 7) / 8;
        if (words <= 512) break;
    }
    for (std::string &text : texts) {
        if (text.size() <= most) continue;
        std::size_t front = most - 3;
        while ((static_cast<unsigned char>(text[front]) & 0xc0) == 0x80) front--;
        text = text.substr(0, front) + "...";
        cut++;
    }
    return texts;
}

std::string random_text(std::mt19937 &random, std::size_t most) {
    const char *const pieces[] = {"a", "é", "\xe2\x82\xac", "\xf0\x9f\x92\xa1"};
    std::string text;
    const std::size_t wanted = random() % (most + 1);
    while (text.size() < wanted) text += random() % 3 != 0 ? "b" : pieces[random() % 4];
    return text;
}

void cut_at_random(Expected &expected, std::uint64_t &cut) {
    std::mt19937 random(60);
    for (int turn = 0; turn < 300; turn++) {
        const std::string a = random_text(random, 6000), b = random_text(random, 5000), c = random_text(random, 3000);
        std::vector<std::string> kept = cut_as_wanted({a}, 0, cut);
        NANO_LOG(NOTICE, "one %s", a);
        EXPECT("one %s", kept[0].c_str());
        kept = cut_as_wanted({a, b}, 1, cut);
        NANO_LOG(NOTICE, "two %s %d %s", a.c_str(), turn, b);
        EXPECT("two %s %d %s", kept[0].c_str(), turn, kept[1].c_str());
        kept = cut_as_wanted({a, b, c, "short"}, 0, cut);
        NANO_LOG(NOTICE, "four %s %s %s %s", a, b.c_str(), c, "short");
        EXPECT("four %s %s %s %s", kept[0].c_str(), kept[1].c_str(), kept[2].c_str(), kept[3].c_str());
    }
}

// Calls about the longest that there are, with and without precisions.
void cut_about(Expected &expected, std::uint64_t &cut) {
    for (std::size_t len = 2020; len < 2060; len++) {
        const std::string text = times(len, "y");
        std::vector<std::string> kept = cut_as_wanted({text, text}, 0, cut);
        NANO_LOG(NOTICE, "%s|%s", text, text);
        EXPECT("%s|%s", kept[0].c_str(), kept[1].c_str());
        const std::string front = text.substr(0, 2040);
        kept = cut_as_wanted({front, front}, 0, cut);
        NANO_LOG(NOTICE, "%.2040s|%.2040s", text, text);
        EXPECT("%s|%s", kept[0].c_str(), kept[1].c_str());
        kept = cut_as_wanted({front, front}, 2, cut);
        NANO_LOG(NOTICE, "%.*s|%.*s", 2040, text.c_str(), 2040, text);
        EXPECT("%s|%s", kept[0].c_str(), kept[1].c_str());
    }
    // As many texts as there may be.
    const std::string z = times(60, "z");
    std::vector<std::string> texts(64, z);
    texts = cut_as_wanted(texts, 0, cut);
    NANO_LOG(NOTICE,
             "%s%s%s%s%s%s%s%s%s%s%s%s%s%s%s%s%s%s%s%s%s%s%s%s%s%s%s%s%s%s%s%s"
             "%s%s%s%s%s%s%s%s%s%s%s%s%s%s%s%s%s%s%s%s%s%s%s%s%s%s%s%s%s%s%s%s",
             z, z, z, z, z, z, z, z, z, z, z, z, z, z, z, z, z, z, z, z, z, z, z, z, z, z, z, z, z, z, z, z, z, z, z, z,
             z, z, z, z, z, z, z, z, z, z, z, z, z, z, z, z, z, z, z, z, z, z, z, z, z, z, z, z);
    std::string all;
    for (const std::string &one : texts) all += one;
    EXPECT("%s", all.c_str());
    // Bytes that are no UTF-8 are cut where they are.
    const std::string wild = times(5000, "\x80");
    NANO_LOG(NOTICE, "%s", wild);
    EXPECT("%s...", wild.substr(0, 3997).c_str());
    cut++;
}

}  // namespace

int main() {
    nanolog::Options options;
    options.clock = next_tick;
    options.nanos = kBegin;
    options.keep_times = false;
    options.quiet = true;
    nanolog::Session log("texts.log", DICTIONARY, options);
    CHECK(log);
    Expected expected("texts.expected");
    std::uint64_t cut = 0;
    read(expected, cut);
    read_ended(expected, cut);
    cut_at_random(expected, cut);
    cut_about(expected, cut);
    const nanolog::Report report = log.close();
    CHECK(report.logged == expected.calls() && report.cut == cut && report.misfit == 0 && report.sizes == 0);
    return 0;
}
