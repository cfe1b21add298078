// Limits how much is let through: so much a second, and a burst. Plain C++14, as limiter.h.
#ifndef GATEWAY_RATE_H
#define GATEWAY_RATE_H

#include <algorithm>
#include <chrono>
#include <cstddef>

namespace gateway {

// What is taken is measured after it was taken, so that more may be taken than there is: that much
// is owed, and nothing is to be taken until it is paid off. One thread at a time.
class Rate {
  public:
    using Clock = std::chrono::steady_clock;

    // burst is what may be taken at once where nothing was taken for long. Both are above 0.
    Rate(std::size_t a_second, std::size_t burst)
        : each_(std::chrono::duration<double>(1.0 / static_cast<double>(a_second))),
          burst_(in_time(burst)) {}

    // Takes some, and returns from when on more may be taken: a moment that is not after `now`
    // where nothing is owed.
    Clock::time_point take(std::size_t amount, Clock::time_point now) {
        whole_at_ = std::max(whole_at_, now) + in_time(amount);
        return whole_at_ - burst_;
    }

    // Another rate from now on. What is owed stays owed.
    void change(std::size_t a_second, std::size_t burst) {
        each_ = Rate(a_second, burst).each_;
        burst_ = in_time(burst);
    }

  private:
    Clock::duration in_time(std::size_t amount) const {
        return std::chrono::duration_cast<Clock::duration>(each_ * static_cast<double>(amount));
    }

    std::chrono::duration<double> each_; // in which one more may be taken
    Clock::duration burst_;
    Clock::time_point whole_at_; // when the whole burst may be taken again
};

} // namespace gateway

#endif
