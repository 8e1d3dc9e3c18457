#include "server.h"

#include <chrono>
#include <utility>

Server::Server(int threads) {
    for (int thread = 0; thread < threads; thread++) threads_.emplace_back([this, thread] { serve(thread); });
}

Server::~Server() {
    {
        const std::lock_guard lock(mutex_);
        is_closing_ = true;
    }
    changed_.notify_all();
    for (std::thread &thread : threads_) thread.join();
}

void Server::ask(Request request) {
    {
        std::unique_lock lock(mutex_);
        changed_.wait(lock, [this] { return !is_full(); });
        requests_.push_back(std::move(request));
    }
    changed_.notify_all();
}

void Server::serve(int thread) {
    NANO_LOG(DEBUG, "thread %d begins", thread);
    for (int answered = 0;; answered++) {
        Request request;
        {
            std::unique_lock lock(mutex_);
            changed_.wait(lock, [this] { return is_closing_ || !requests_.empty(); });
            if (requests_.empty()) {
                NANO_LOG(DEBUG, "thread %d ends after %d requests", thread, answered);
                return;
            }
            request = std::move(requests_.front());
            requests_.pop_front();
        }
        changed_.notify_all();
        answer(request, thread);
    }
}

void Server::answer(const Request &request, int thread) {
    if (request.bytes == 0) {
        NANO_LOG(ERROR, "GET %s: there is no such file", request.path);
        return;
    }
    const auto begun = std::chrono::steady_clock::now();
    std::string page(request.bytes, '.');
    const std::chrono::duration<double, std::micro> took = std::chrono::steady_clock::now() - begun;
    NANO_LOG(NOTICE, "GET %s: %zu bytes in %d us by thread %d", request.path, page.size(),
             static_cast<int>(took.count()), thread);
}
