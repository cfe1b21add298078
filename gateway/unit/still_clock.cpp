#include "still_clock.h"

#include <atomic>
#include <ctime>

#include <sys/syscall.h>
#include <sys/time.h>
#include <unistd.h>

namespace gateway::tests {

namespace {

constexpr std::int64_t nine = 1741942800000; // 2025-03-14 09:00:00 UTC, in milliseconds
std::atomic<std::int64_t> moment{nine};
std::atomic<bool> stands_still{false};

} // namespace

StillClock::StillClock() {
    moment = nine;
    stands_still = true;
}

StillClock::~StillClock() {
    stands_still = false;
}

void StillClock::move(std::chrono::milliseconds by) {
    moment += by.count();
}

} // namespace gateway::tests

using gateway::tests::moment;
using gateway::tests::stands_still;

// In the place of the C library's, for what is linked with this. Clocks that measure go on.
extern "C" {

int clock_gettime(clockid_t clock, timespec *now) noexcept {
    const bool is_date = clock == CLOCK_REALTIME || clock == CLOCK_REALTIME_COARSE;
    if (is_date && stands_still) {
        *now = {moment / 1000, moment % 1000 * 1000000};
        return 0;
    }
    return static_cast<int>(::syscall(SYS_clock_gettime, clock, now));
}

int gettimeofday(timeval *now, void *) noexcept {
    timespec found{};
    const int result = clock_gettime(CLOCK_REALTIME, &found);
    *now = {found.tv_sec, found.tv_nsec / 1000};
    return result;
}

time_t time(time_t *now) noexcept {
    timespec found{};
    clock_gettime(CLOCK_REALTIME, &found);
    if (now != nullptr) {
        *now = found.tv_sec;
    }
    return found.tv_sec;
}

} // extern "C"
