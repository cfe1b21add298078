// A clock that goes on by its looks: so a test has a moment come between two of them.
#ifndef DESK_TESTS_LATE_CLOCK_H
#define DESK_TESTS_LATE_CLOCK_H

#include "moment.h"

namespace desk_tests {

// As long as one lives, the next look at the date finds this moment, and each later one a
// millisecond more than the one before.
class LateClock {
  public:
    explicit LateClock(desk::Moment first);
    ~LateClock();
    LateClock(const LateClock &) = delete;
    LateClock &operator=(const LateClock &) = delete;
};

} // namespace desk_tests

#endif
