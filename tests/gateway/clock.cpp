// Stands between a process and its clocks, by LD_PRELOAD.
//
//     CLOCK_AHEAD=SECONDS  the date and the time of day are later by so much
//     CLOCK_STEP=FILE      by as many seconds as the eight bytes of the file say now, a number in
//                          the order of this machine: the clock is set
//     CLOCK_PASSED=FILE    so many seconds have passed beside those that passed on this machine: for
//                          the date and the time of day, for clocks that only measure, and for waits
//
// Whoever waits until a moment of a clock waits until that moment of the clock as it is here, and
// looks at it again within a fifth of a second. A wait for a length of time (nanosleep, poll,
// select) is as long as it says: nobody here waits so for more than a few seconds.
#include <dlfcn.h>
#include <fcntl.h>
#include <pthread.h>
#include <semaphore.h>
#include <sys/mman.h>
#include <sys/time.h>
#include <time.h>
#include <unistd.h>

#include <algorithm>
#include <cerrno>
#include <cstdlib>

namespace {

constexpr long second = 1'000'000'000; // nanoseconds
constexpr long until_next_look = second / 5;

// The seconds of the date in 2001; no machine has run for so many.
constexpr time_t many_seconds = 1'000'000'000;

// Null where there is no such file.
const volatile long long *seconds_in(const char *path) {
    const int file = path ? ::open(path, O_RDONLY | O_CLOEXEC) : -1;
    if (file < 0)
        return nullptr;
    void *place = ::mmap(nullptr, sizeof(long long), PROT_READ, MAP_SHARED, file, 0);
    ::close(file);
    return place == MAP_FAILED ? nullptr : static_cast<const volatile long long *>(place);
}

const volatile long long *passing() {
    static const volatile long long *seconds = seconds_in(std::getenv("CLOCK_PASSED"));
    return seconds;
}

time_t passed() {
    return passing() ? static_cast<time_t>(*passing()) : 0;
}

time_t ahead() {
    static const char *text = std::getenv("CLOCK_AHEAD");
    static const time_t seconds = text ? std::atol(text) : 0;
    static const volatile long long *step = seconds_in(std::getenv("CLOCK_STEP"));
    return seconds + (step ? static_cast<time_t>(*step) : 0) + passed();
}

bool is_date(clockid_t clock) {
    return clock == CLOCK_REALTIME || clock == CLOCK_REALTIME_COARSE;
}

bool measures(clockid_t clock) {
    return clock == CLOCK_MONOTONIC || clock == CLOCK_MONOTONIC_RAW ||
           clock == CLOCK_MONOTONIC_COARSE || clock == CLOCK_BOOTTIME;
}

// What is added to this clock.
time_t added_to(clockid_t clock) {
    return is_date(clock) ? ahead() : measures(clock) ? passed() : 0;
}

template <typename Call> Call next(const char *name) {
    return reinterpret_cast<Call>(dlsym(RTLD_NEXT, name));
}

int machine_time(clockid_t clock, timespec *now) {
    static const auto call = next<int (*)(clockid_t, timespec *)>("clock_gettime");
    return call(clock, now);
}

bool is_before(const timespec &one, const timespec &other) {
    return one.tv_sec != other.tv_sec ? one.tv_sec < other.tv_sec : one.tv_nsec < other.tv_nsec;
}

// How long a wait until a moment of a clock may last: until a moment of the machine's.
struct Wait {
    timespec end;
    bool is_whole; // else the clock has to be looked at again
};

Wait wait_until(clockid_t clock, const timespec &moment) {
    timespec end = moment;
    // The kernel takes no moment before 0: it is over.
    end.tv_sec = std::max<time_t>(end.tv_sec - added_to(clock), 0);
    timespec look{};
    if (!passing() || machine_time(clock, &look) != 0)
        return {end, true};
    look.tv_nsec += until_next_look;
    look.tv_sec += look.tv_nsec / second;
    look.tv_nsec %= second;
    return is_before(look, end) ? Wait{look, false} : Wait{end, true};
}

} // namespace

extern "C" {

int clock_gettime(clockid_t clock, timespec *now) noexcept {
    const int result = machine_time(clock, now);
    if (result == 0)
        now->tv_sec += added_to(clock);
    return result;
}
int gettimeofday(timeval *now, void *zone) noexcept {
    static const auto call = next<int (*)(timeval *, void *)>("gettimeofday");
    const int result = call(now, zone);
    if (result == 0)
        now->tv_sec += ahead();
    return result;
}
time_t time(time_t *now) noexcept {
    timespec found{};
    clock_gettime(CLOCK_REALTIME, &found);
    if (now)
        *now = found.tv_sec;
    return found.tv_sec;
}

// What a wait with a limit of the C++ library is. One that ends before its time is a spurious
// wake-up, which every caller has to expect.
int pthread_cond_clockwait(pthread_cond_t *condition, pthread_mutex_t *mutex, clockid_t clock,
                           const timespec *limit) {
    using Call = int (*)(pthread_cond_t *, pthread_mutex_t *, clockid_t, const timespec *);
    static const auto call = next<Call>("pthread_cond_clockwait");
    const Wait wait = wait_until(clock, *limit);
    const int result = call(condition, mutex, clock, &wait.end);
    return result == ETIMEDOUT && !wait.is_whole ? 0 : result;
}

// The clock is the condition's, and the limit tells which it is.
int pthread_cond_timedwait(pthread_cond_t *condition, pthread_mutex_t *mutex,
                           const timespec *limit) {
    const clockid_t clock = limit->tv_sec < many_seconds ? CLOCK_MONOTONIC : CLOCK_REALTIME;
    return pthread_cond_clockwait(condition, mutex, clock, limit);
}

int sem_clockwait(sem_t *semaphore, clockid_t clock, const timespec *limit) {
    static const auto call = next<int (*)(sem_t *, clockid_t, const timespec *)>("sem_clockwait");
    for (;;) {
        const Wait wait = wait_until(clock, *limit);
        const int result = call(semaphore, clock, &wait.end);
        if (result == 0 || errno != ETIMEDOUT || wait.is_whole)
            return result;
    }
}
int sem_timedwait(sem_t *semaphore, const timespec *limit) {
    return sem_clockwait(semaphore, CLOCK_REALTIME, limit);
}

int clock_nanosleep(clockid_t clock, int flags, const timespec *time, timespec *left) {
    using Call = int (*)(clockid_t, int, const timespec *, timespec *);
    static const auto call = next<Call>("clock_nanosleep");
    if ((flags & TIMER_ABSTIME) == 0)
        return call(clock, flags, time, left);
    for (;;) {
        const Wait wait = wait_until(clock, *time);
        const int result = call(clock, flags, &wait.end, nullptr);
        if (result != 0 || wait.is_whole)
            return result;
    }
}

} // extern "C"
