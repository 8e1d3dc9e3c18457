// How many bytes of each text are printed, as nanolog_text_limit tells it, and the version.
#include <string>
#include <vector>

#include "check.hpp"
#include "nanolog.h"

namespace {

constexpr std::int32_t kNone = NANOLOG_NO_TEXT;

struct Limited {
    std::string format;
    std::vector<std::int32_t> limits;
};

std::vector<Limited> limited_formats() {
    std::string texts;
    for (int nth = 0; nth < 64; nth++) texts += "%s";
    return {
        {"%s", {4000}},
        {"%.0s|%.s|%.1s|%.9s|%.10s", {0, 0, 1, 9, 10}},
        {"%.3999s|%.4000s|%.4001s|%.4095s", {3999, 4000, 4000, 4000}},
        {"%5s|%-5.2s|%4095s|%4095.4s", {4000, 2, 4000, 4}},
        {"%*s|%.*s|%*.*s|%-*.3s", {kNone, 4000, kNone, 4000, kNone, kNone, 4000, kNone, 3}},
        {"%d of %s, %*d %c%% %p %.7s", {kNone, 4000, kNone, kNone, kNone, kNone, 7}},
        {"%.3d%.3i%.3o%.3u%.3x%.3X%hhd%hd%ld%lld%jd%zu%td", std::vector<std::int32_t>(13, kNone)},
        {texts, std::vector<std::int32_t>(64, 4000)},
        {"of nothing, 100%%", {}},
    };
}

// Asks for the limit of each argument of each format, and of what isn't there.
void ask_limits(void *&session, const std::vector<Limited> &formats) {
    const auto count = static_cast<std::uint32_t>(formats.size());
    for (std::uint32_t id = 0; id < count; id++) {
        const std::vector<std::int32_t> &limits = formats[id].limits;
        const auto past = static_cast<std::uint32_t>(limits.size());
        for (std::uint32_t nth = 0; nth < past; nth++) {
            CHECK(nanolog_text_limit(&session, id, nth) == limits[nth]);
        }
        for (const std::uint32_t nth : {past, past + 1, 63u + 1, 65536u, ~0u}) {
            CHECK(nanolog_text_limit(&session, id, nth) == NANOLOG_NO_TEXT);
        }
    }
    for (const std::uint32_t id : {count, count + 1, 65535u, 65536u, ~0u}) {
        CHECK(nanolog_text_limit(&session, id, 0) == NANOLOG_NO_TEXT);
    }
}

void limits() {
    const std::vector<Limited> formats = limited_formats();
    std::string dictionary = "nanolog-trace 1\n";
    for (std::size_t id = 0; id < formats.size(); id++) {
        dictionary += "message " + std::to_string(id) + " NOTICE 1 \"calls.cc\" \"" + formats[id].format + "\"\n";
    }
    void *session = nullptr, *consumer = nullptr, *writer = nullptr, *null = nullptr;
    std::uint64_t line = 0;
    const auto *const bytes = reinterpret_cast<const std::uint8_t *>(dictionary.data());
    CHECK(nanolog_open(bytes, dictionary.size(), 1024, 1, 1, 0, 0, 1, &session, &consumer, &line) == NANOLOG_OK);
    ask_limits(session, formats);
    // When no writer is left, and when the session has ended.
    CHECK(nanolog_writer(&session, &writer) == NANOLOG_OK);
    ask_limits(session, formats);
    CHECK(nanolog_end(&session) == NANOLOG_OK);
    ask_limits(session, formats);
    for (void **other : {&null, &consumer, &writer}) {
        CHECK(nanolog_text_limit(other, 0, 0) == NANOLOG_BAD_HANDLE);
        CHECK(nanolog_text_limit(other, ~0u, ~0u) == NANOLOG_BAD_HANDLE);
    }
    for (void *handle : {session, consumer, writer}) nanolog_free(handle);
}

}  // namespace

int main() {
    CHECK(nanolog_version_1() == 1);
    limits();
    return 0;
}
