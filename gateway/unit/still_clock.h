// A clock that stands still until a test moves it: so a test does the same at any time, and takes
// no longer than its work.
#ifndef GATEWAY_TESTS_STILL_CLOCK_H
#define GATEWAY_TESTS_STILL_CLOCK_H

#include <chrono>

namespace gateway::tests {

// As long as one lives it is 09:00:00 on 14 March 2025 in UTC, for all of the process, and later by
// what it was moved.
class StillClock {
  public:
    StillClock();
    ~StillClock();
    StillClock(const StillClock &) = delete;
    StillClock &operator=(const StillClock &) = delete;

    void move(std::chrono::milliseconds by);
};

} // namespace gateway::tests

#endif
