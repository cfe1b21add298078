#include "health/clock_watch.h"

#include <algorithm>
#include <ctime>
#include <utility>

#include <sys/timex.h>

namespace gateway {

namespace {

using std::chrono::microseconds;

constexpr auto least_step = std::chrono::milliseconds(100);

constexpr auto longest_reading = std::chrono::milliseconds(5);

// The kernel slews a clock by 500 millionths at most; twice that is let pass.
constexpr auto slewing = 1000; // one of so many

microseconds measured(clockid_t clock) {
    timespec now{};
    ::clock_gettime(clock, &now);
    return std::chrono::seconds(now.tv_sec) +
           std::chrono::duration_cast<microseconds>(std::chrono::nanoseconds(now.tv_nsec));
}

} // namespace

ClockWatch::ClockWatch(Read read) : read_(std::move(read)), last_(read_()) {}

// Where this thread loses its processor between the two clocks, that is no step of one: they are
// read again.
ClockWatch::Reading ClockWatch::read_now() {
    for (;;) {
        const microseconds before = measured(CLOCK_BOOTTIME);
        const microseconds time = measured(CLOCK_REALTIME);
        const microseconds passed = measured(CLOCK_BOOTTIME) - before;
        if (passed < longest_reading) {
            return {time, before + passed / 2};
        }
    }
}

std::optional<microseconds> ClockWatch::look() {
    const Reading now = read_();
    const microseconds passed = now.since_boot - last_.since_boot;
    set_by_ += (now.time - last_.time) - passed;
    last_ = now;
    if (std::chrono::abs(set_by_) > least_step) {
        return std::exchange(set_by_, microseconds(0));
    }
    const microseconds slewed = passed / slewing;
    set_by_ -= std::clamp(set_by_, -slewed, slewed);
    return std::nullopt;
}

void ClockSteps::put(microseconds step) {
    if (steps_.size() < most) {
        steps_.push_back(step);
    } else {
        steps_.back() += step;
    }
}

KernelClock read_kernel_clock() {
    timex clock{};
    const int state = ::adjtimex(&clock);
    return {state >= 0 && state != TIME_ERROR && (clock.status & STA_UNSYNC) == 0,
            microseconds(clock.maxerror)};
}

} // namespace gateway
