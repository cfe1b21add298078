// How often one firm may log on.
#ifndef GATEWAY_SESSION_LOGON_RATE_H
#define GATEWAY_SESSION_LOGON_RATE_H

#include "common/rate.h"

namespace gateway {

// Each Logon that is accepted is rows of the log, which no other limit of the firm counts, and the
// cancel of its quotes may be one more: a firm that logs on and off without end would fill the disk
// for all. An engine that comes again each five seconds is far below it. One thread at a time.
class LogonRate {
  public:
    using Time = Rate::Clock::time_point;

    // Whether a Logon may be accepted.
    bool may_log_on(Time now) const { return from_ <= now; }
    // One was.
    void add(Time now) { from_ = rate_.take(1, now); }

  private:
    Rate rate_{1, 1000}; // a second, and at once
    Time from_{};
};

} // namespace gateway

#endif
