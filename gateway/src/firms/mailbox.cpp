#include "firms/mailbox.h"

#include <optional>
#include <stdexcept>
#include <utility>

namespace gateway {

namespace {

// So many messages that wait leave with the one behind them, in one call of the system.
constexpr std::size_t most_held = 32;

} // namespace

Mailbox::Mailbox(Handover session, std::size_t limit,
                 std::function<void(const std::string &)> failed)
    : session_(std::move(session)), limit_(limit), failed_(std::move(failed)),
      thread_([this](const std::stop_token &stop) { run(stop); }) {}

void Mailbox::put(Delivery delivery) {
    std::unique_lock lock(mutex_);
    if (waiting_.size() >= limit_) {
        lock.unlock();
        session_.disconnect();
        lock.lock();
        went_.wait(lock, [&] { return waiting_.size() < limit_ || broken_; });
    }
    waiting_.push_back(std::move(delivery));
    came_.notify_one();
}

void Mailbox::put_now(Delivery delivery) {
    {
        std::unique_lock lock(mutex_);
        const bool is_next = waiting_.empty() && !handing_over_ && !broken_;
        if (is_next && hand_over(lock, [&] { return session_.deliver_at_once(delivery); })) {
            return;
        }
    }
    put(std::move(delivery));
}

void Mailbox::wait_until_empty() {
    std::unique_lock lock(mutex_);
    went_.wait(lock, [&] { return (waiting_.empty() && !handing_over_) || broken_; });
}

void Mailbox::run(const std::stop_token &stop) {
    std::unique_lock lock(mutex_);
    for (std::size_t held = 0;;) {
        came_.wait(lock, stop, [&] { return broken_ || (!waiting_.empty() && !handing_over_); });
        if (stop.stop_requested() || broken_) {
            return;
        }
        const Delivery delivery = std::move(waiting_.front());
        waiting_.pop_front();
        held = waiting_.empty() || held == most_held ? 0 : held + 1;
        hand_over(lock, [&] {
            session_.deliver(delivery, held > 0);
            return true;
        });
    }
}

bool Mailbox::hand_over(std::unique_lock<std::mutex> &lock, const std::function<bool()> &deliver) {
    handing_over_ = true;
    lock.unlock();
    bool done = false;
    std::optional<std::string> fault;
    try {
        done = deliver();
    } catch (const std::exception &caught) {
        fault = caught.what();
    }
    lock.lock();
    handing_over_ = false;
    broken_ = broken_ || fault;
    went_.notify_all();
    if (!waiting_.empty()) {
        came_.notify_one();
    }
    if (fault) {
        lock.unlock();
        failed_(*fault);
        lock.lock();
    }
    return done;
}

} // namespace gateway
