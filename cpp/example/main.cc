#include <string>

#include "server.h"

int main(int count, char **words) {
#ifdef NANOLOG_DICTIONARY  // which the build has, where it takes the statements out
    nanolog::Session log("server.log", NANOLOG_DICTIONARY);
#else
    nanolog::Session log("server.log");
#endif
    const int port = 8080, threads = 3;
    const int requests = count > 1 ? std::stoi(words[1]) : 1000;
    NANO_LOG(NOTICE, "listening on port %d", port);
    {
        Server server(threads);
        for (int number = 0; number < requests; number++) {
            const bool is_there = number % 100 != 0;
            server.ask({"/page" + std::to_string(number), is_there ? 100 + static_cast<std::size_t>(number) : 0});
        }
    }
    NANO_LOG(NOTICE, "stopped after %d requests", requests);
}
