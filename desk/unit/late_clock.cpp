#include "late_clock.h"

#include <atomic>
#include <ctime>

#include <sys/syscall.h>
#include <unistd.h>

namespace desk_tests {

namespace {

std::atomic<std::int64_t> next{0}; // in milliseconds; 0 where the clock is the system's

} // namespace

LateClock::LateClock(desk::Moment first) {
    next = desk::milliseconds_of(first);
}

LateClock::~LateClock() {
    next = 0;
}

} // namespace desk_tests

// In the place of the C library's. Clocks that measure go on.
extern "C" int clock_gettime(clockid_t clock, timespec *now) noexcept {
    if (clock == CLOCK_REALTIME && desk_tests::next != 0) {
        const std::int64_t found = desk_tests::next++;
        *now = {found / 1000, found % 1000 * 1000000};
        return 0;
    }
    return static_cast<int>(::syscall(SYS_clock_gettime, clock, now));
}
