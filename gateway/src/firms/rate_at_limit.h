// How fast a firm may still take something back once its bytes of the day are used up, or the disk
// is nearly full.
#ifndef GATEWAY_FIRMS_RATE_AT_LIMIT_H
#define GATEWAY_FIRMS_RATE_AT_LIMIT_H

#include "common/rate.h"

#include <cstdint>

namespace gateway {

// What takes something back is taken then, too, and each such message is a line of the log: so
// these have a rate of their own, or one firm would fill the disk for all with cancels of nothing.
// Whoever withdraws all that it may quote in a day is far below it. One thread at a time.
class RateAtLimit {
  public:
    // Whether another message may come there.
    bool has_some() const { return from_ <= Rate::Clock::now(); }
    // One has: so many bytes is its line.
    void add(std::uint64_t line) {
        from_ = rate_.take(static_cast<std::size_t>(line + of_its_answer), Rate::Clock::now());
    }

  private:
    // What the log keeps of the venue's answer to a message, about.
    static constexpr std::uint64_t of_its_answer = 1024;

    Rate rate_{16384, 16777216}; // a second, and at once
    Rate::Clock::time_point from_{};
};

} // namespace gateway

#endif
