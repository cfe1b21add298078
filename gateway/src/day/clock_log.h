// Writes into the log how the machine's clock was.
#ifndef GATEWAY_DAY_CLOCK_LOG_H
#define GATEWAY_DAY_CLOCK_LOG_H

#include "health/clock_watch.h"
#include "log/log.h"

#include <chrono>
#include <optional>
#include <vector>

namespace gateway {

// One thread at a time.
class ClockLog {
  public:
    explicit ClockLog(Log &log) : log_(log) {}

    // Puts each step of the clock, and what the kernel says of it: the first time, when that has
    // changed, and every five minutes. To be called each second. Throws where the log takes
    // nothing.
    void look(const KernelClock &now, const std::vector<std::chrono::microseconds> &steps);

  private:
    using Clock = std::chrono::steady_clock;

    bool is_due(const KernelClock &now) const;

    Log &log_;
    std::optional<KernelClock> sample_; // the last one
    Clock::time_point sampled_at_;
};

} // namespace gateway

#endif
