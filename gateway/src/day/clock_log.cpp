#include "day/clock_log.h"

#include "log/notes.h"

namespace gateway {

namespace {

// Between two samples of a clock whose state stays.
constexpr auto at_most = std::chrono::minutes(5);

} // namespace

void ClockLog::look(const KernelClock &now, const std::vector<std::chrono::microseconds> &steps) {
    for (const std::chrono::microseconds step : steps) {
        log_.append_note(note_kinds::clock, text_of_step(step));
    }
    if (is_due(now)) {
        sample_ = now;
        sampled_at_ = Clock::now();
        log_.append_note(note_kinds::clock, text_of(now));
    }
}

bool ClockLog::is_due(const KernelClock &now) const {
    return !sample_ || sample_->is_synchronised != now.is_synchronised ||
           Clock::now() - sampled_at_ >= at_most;
}

} // namespace gateway
