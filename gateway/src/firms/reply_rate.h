// How many messages of its own a firm's session may send before the firm is logged out.
#ifndef GATEWAY_FIRMS_REPLY_RATE_H
#define GATEWAY_FIRMS_REPLY_RATE_H

#include "common/rate.h"

#include <cstddef>

namespace gateway {

// What a session says to a firm by itself is a session note of the log, and a row where it is kept
// (a Reject, a BusinessMessageReject, a Heartbeat that has to wait). The firm's bytes of the day do
// not count these, and a firm makes the session say them by small messages: so they have a rate of
// their own, or one firm would fill the disk for all with TestRequests. One thread at a time.
class ReplyRate {
  public:
    // Counts so many.
    void add(std::size_t replies) { from_ = rate_.take(replies, Rate::Clock::now()); }
    // Whether there were more of them than there may be until now.
    bool are_too_many() const { return from_ > Rate::Clock::now(); }

  private:
    Rate rate_{10, 1000}; // a second, and at once
    Rate::Clock::time_point from_{};
};

} // namespace gateway

#endif
