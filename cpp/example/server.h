// A server that answers requests for files by several threads.
#pragma once

#include <condition_variable>
#include <cstddef>
#include <deque>
#include <mutex>
#include <nanolog.hpp>
#include <string>
#include <thread>
#include <vector>

struct Request {
    std::string path;
    std::size_t bytes;
};

class Server {
   public:
    explicit Server(int threads);
    // Waits until all requests are answered.
    ~Server();

    void ask(Request request);

   private:
    void serve(int thread);
    void answer(const Request &request, int thread);

    // How many requests may wait. That one has to wait longer is told once.
    bool is_full() {
        const std::size_t waiting = requests_.size();
        if (waiting == kMost) NANO_LOG(WARNING, "%zu requests are waiting", waiting);
        return waiting > kMost;
    }

    static constexpr std::size_t kMost = 100;

    std::mutex mutex_;
    std::condition_variable changed_;
    std::deque<Request> requests_;
    bool is_closing_ = false;
    std::vector<std::thread> threads_;
};
