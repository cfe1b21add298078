// How fast one firm may send messages, and have messages sent again.
#ifndef GATEWAY_FIRMS_FIRM_RATE_H
#define GATEWAY_FIRMS_FIRM_RATE_H

#include "common/rate.h"
#include "config/rate_limits.h"

#include <mutex>

namespace gateway {

// Outlives the firm's connections, so that another connection is no way around it. Any thread may
// call it.
class FirmRate {
  public:
    using Clock = Rate::Clock;

    explicit FirmRate(const RateLimits &limits)
        : messages_(limits.messages_per_second, limits.messages_burst),
          bytes_(limits.bytes_per_second, limits.bytes_burst),
          resends_(limits.resends_per_second, limits.resends_burst) {}

    // Other limits from now on.
    void change(const RateLimits &limits) {
        const std::lock_guard<std::mutex> lock(mutex_);
        messages_.change(limits.messages_per_second, limits.messages_burst);
        bytes_.change(limits.bytes_per_second, limits.bytes_burst);
        resends_.change(limits.resends_per_second, limits.resends_burst);
    }
    // So much came, the session's own messages too: from when on more may be read.
    Clock::time_point came(std::size_t messages, std::size_t bytes) {
        const Clock::time_point now = Clock::now();
        const std::lock_guard<std::mutex> lock(mutex_);
        return std::max(messages_.take(messages, now), bytes_.take(bytes, now));
    }
    // So many were sent again: from when on more may be.
    Clock::time_point sent_again(std::size_t messages) {
        const std::lock_guard<std::mutex> lock(mutex_);
        return resends_.take(messages, Clock::now());
    }

  private:
    std::mutex mutex_;
    Rate messages_;
    Rate bytes_;
    Rate resends_;
};

} // namespace gateway

#endif
