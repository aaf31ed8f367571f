// Threads of a program that checks recordings, which do things at the same time or by turns.
#pragma once

#include <unistd.h>

#include <atomic>
#include <cstddef>
#include <functional>
#include <thread>
#include <utility>
#include <vector>

#include "recorded.hpp"

// Threads that do as many things, one thing after the other, each all of them; until all have ended, none of them ends.
class Threads {
   public:
    explicit Threads(std::size_t count) : gates_(kStages) {
        for (std::size_t i = 0; i < count; ++i) {
            threads_.emplace_back([this, i] {
                for (std::size_t stage = 0; stage < kStages; ++stage) {
                    gates_[stage].wait();
                    if (ends_) return;
                    doing_(i);
                    ++done_;
                }
            });
        }
    }
    // Each does this, at the same time.
    void all(std::function<void(std::size_t)> what) {
        gates_[stage_].wait_for(static_cast<int>(threads_.size()));
        doing_ = std::move(what);
        done_ = 0;
        gates_[stage_++].open_for(static_cast<int>(threads_.size()));
        while (done_ != threads_.size()) usleep(50);
    }
    // The same one after the other, by their order.
    void each(const std::function<void(std::size_t)>& what) {
        std::atomic<std::size_t> next{0};
        all([&](std::size_t i) {
            while (next != i) usleep(50);
            what(i);
            ++next;
        });
    }
    ~Threads() {
        gates_[stage_].wait_for(static_cast<int>(threads_.size()));
        ends_ = true;
        gates_[stage_].open_for(static_cast<int>(threads_.size()));
        for (std::thread& thread : threads_) thread.join();
    }
    Threads(const Threads&) = delete;
    Threads& operator=(const Threads&) = delete;

   private:
    static constexpr std::size_t kStages = 16;
    std::vector<Gate> gates_;
    std::size_t stage_ = 0;
    std::function<void(std::size_t)> doing_;
    std::atomic<std::size_t> done_{0};
    std::atomic<bool> ends_{false};
    std::vector<std::thread> threads_;
};
