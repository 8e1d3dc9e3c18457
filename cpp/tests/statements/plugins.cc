// A program that loads plugins, one case a run.
// usage: plugins CASE
#include <dlfcn.h>

#include <atomic>
#include <cstring>
#include <nanolog.hpp>
#include <thread>
#include <vector>

#include "check.hpp"

namespace {

// Calls a plugin, and answers whether it is gone afterwards.
bool visit(const char *name, int number) {
    void *const handle = dlopen(name, RTLD_NOW | RTLD_LOCAL);
    CHECK(handle != nullptr);
    const auto call = reinterpret_cast<void (*)(int)>(dlsym(handle, "of_library"));
    CHECK(call != nullptr);
    call(number);
    CHECK(dlclose(handle) == 0);
    return dlopen(name, RTLD_NOW | RTLD_NOLOAD) == nullptr;
}

// A plugin that comes before the first call is taken in, and logs whenever it comes again.
void first() {
    nanolog::Session log("plugins.log");
    CHECK(visit("./one.so", 0));
    const std::uint32_t places = nanolog::detail::registry.count;
    for (int number = 1; number < 50; number++) CHECK(visit("./one.so", number));
    NANO_LOG(NOTICE, "of the program");
    for (int number = 50; number < 100; number++) CHECK(visit("./one.so", number));
    // What comes and goes leaves no more behind than it did the first time.
    CHECK(nanolog::detail::registry.count == places);
    CHECK(log.close().is_clean());
}

// One that comes later has no message, but for what others have, too.
void late() {
    nanolog::Session log("plugins.log");
    CHECK(visit("./one.so", 1));
    CHECK(visit("./two.so", 2));
    CHECK(visit("./two.so", 3));
    const nanolog::Report report = log.close();
    CHECK(report.unknown == 6 && report.logged == 6);
}

// A session that begins later has all messages of what is there by then.
void next() {
    {
        nanolog::Session log("first.log");
        NANO_LOG(NOTICE, "of the first session");
        CHECK(visit("./one.so", 1));
        CHECK(log.close().unknown == 4);
    }
    void *const handle = dlopen("./one.so", RTLD_NOW | RTLD_LOCAL);
    nanolog::Session log("plugins.log");
    NANO_LOG(NOTICE, "of the second session");
    CHECK(!visit("./one.so", 2));
    const nanolog::Report report = log.close();
    CHECK(report.unknown == 0 && report.logged == 3);
    CHECK(dlclose(handle) == 0);
}

// Plugins come and go while threads log.
void busy() {
    constexpr int kVisits = 300;
    nanolog::Session log("plugins.log");
    CHECK(visit("./one.so", 0));
    std::atomic<bool> is_over{false};
    std::vector<std::thread> threads;
    for (int thread = 0; thread < 3; thread++) {
        threads.emplace_back([&] {
            for (int number = 0; !is_over && number < 200000; number++) NANO_LOG(NOTICE, "busy %d", number);
        });
    }
    std::thread other([&] {
        for (int number = 0; number < kVisits; number++) visit("./two.so", number);
    });
    for (int number = 1; number < kVisits; number++) visit("./one.so", number);
    other.join();
    is_over = true;
    for (std::thread &thread : threads) thread.join();
    const nanolog::Report report = log.close();
    CHECK(report.unknown == 3 * kVisits && report.misfit == 0 && report.stale == 0 && report.unplaced == 0);
}

// A plugin that doesn't find what the program has.
void alone() {
    nanolog::Session log("plugins.log");
    NANO_LOG(NOTICE, "of the program");
    visit("./one.so", 1);
    CHECK(log.close().logged == 1);
}

}  // namespace

int main(int count, char **words) {
    CHECK(count == 2);
    const struct {
        const char *name;
        void (*run)();
    } cases[] = {{"first", first}, {"late", late}, {"next", next}, {"busy", busy}, {"alone", alone}};
    for (const auto &one : cases) {
        if (std::strcmp(words[1], one.name) == 0) {
            one.run();
            return 0;
        }
    }
    CHECK(!"a case has this name");
    return 0;
}
