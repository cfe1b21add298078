#include "health/status.h"

#include <utility>

namespace gateway {

Status::Status(std::shared_ptr<spdlog::logger> events) : events_(std::move(events)) {}

void Status::ask_to_stop(const std::string &why) {
    const std::lock_guard lock(mutex_);
    if (stopping_.request_stop()) {
        why_ = why;
    }
    changed_.notify_all();
}

void Status::fail(const std::string &cause, int status) {
    {
        const std::lock_guard lock(mutex_);
        if (ending_ || failure_) {
            return;
        }
        failure_ = cause;
        exit_status_ = status;
    }
    events_->critical("stop cause=\"{}\"", cause);
    failed_.request_stop();
    ask_to_stop(cause);
}

void Status::end() {
    const std::lock_guard lock(mutex_);
    ending_ = true;
}

bool Status::wait(std::chrono::milliseconds longest) {
    std::unique_lock lock(mutex_);
    return changed_.wait_for(lock, longest, [&] { return stopping_.stop_requested(); });
}

std::string Status::why() {
    const std::lock_guard lock(mutex_);
    return why_;
}

int Status::exit_status() {
    const std::lock_guard lock(mutex_);
    return exit_status_;
}

std::optional<std::string> Status::failure() {
    const std::lock_guard lock(mutex_);
    return failure_;
}

} // namespace gateway
