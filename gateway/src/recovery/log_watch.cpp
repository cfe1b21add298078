#include "recovery/log_watch.h"

#include <chrono>
#include <condition_variable>
#include <mutex>
#include <utility>

namespace gateway {

namespace {

using namespace std::chrono_literals;

// Between two looks.
constexpr auto pause = 50ms;

void wait(std::chrono::milliseconds time, const std::stop_token &stop) {
    std::mutex mutex;
    std::condition_variable_any changed;
    std::unique_lock lock(mutex);
    changed.wait_for(lock, stop, time, [] { return false; });
}

} // namespace

LogWatch::LogWatch(Database &database, std::shared_ptr<spdlog::logger> events,
                   std::function<bool()> may_take_over)
    : database_(database), events_(std::move(events)), may_take_over_(std::move(may_take_over)) {}

bool LogWatch::watch(const std::stop_token &stop, const std::function<bool(LogReader &)> &look) {
    while (!stop.stop_requested()) {
        if (turn(look)) {
            return true;
        }
        wait(pause, stop);
    }
    return false;
}

bool LogWatch::turn(const std::function<bool(LogReader &)> &look) {
    try {
        if (!reader_) {
            reader_ = database_.reader();
        }
        if (look(*reader_)) {
            return true;
        }
        told_.clear();
        if (may_take_over_()) {
            term_ = database_.take_over();
        }
        return term_.has_value();
    } catch (const DatabaseAway &fault) {
        reader_.reset();
        tell(fault.what());
        return false;
    }
}

// Each cause once, and again when it came back.
void LogWatch::tell(const std::string &fault) {
    if (fault != told_) {
        told_ = fault;
        events_->warn("the log is away cause=\"{}\"", fault);
    }
}

} // namespace gateway
