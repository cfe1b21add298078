#include "service/day_copying.h"

#include <utility>

namespace gateway {

DayCopying::DayCopying(Copy copy)
    : copy_(std::move(copy)), thread_([this](const std::stop_token &stop) { run(stop); }) {}

bool DayCopying::ask(const std::string &before) {
    const std::lock_guard lock(mutex_);
    asked_ = before;
    changed_.notify_all();
    return !is_at_work_;
}

bool DayCopying::ends_within(std::chrono::milliseconds longest) {
    thread_.request_stop();
    std::unique_lock lock(mutex_);
    return changed_.wait_for(lock, longest, [this] { return has_ended_; });
}

void DayCopying::run(const std::stop_token &stop) {
    std::unique_lock lock(mutex_);
    while (changed_.wait(lock, stop, [this] { return asked_.has_value(); }) &&
           !stop.stop_requested()) {
        const std::string before = *std::exchange(asked_, std::nullopt);
        is_at_work_ = true;
        lock.unlock();
        copy_(before, stop);
        lock.lock();
        is_at_work_ = false;
    }
    has_ended_ = true;
    changed_.notify_all();
}

} // namespace gateway
