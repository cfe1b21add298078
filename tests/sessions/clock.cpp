#include "clock.h"

#include <cstdio>
#include <ctime>
#include <sys/time.h>

namespace {
sessions::Millis time_now = sessions::MIDNIGHT;
}

namespace sessions {

Millis now() {
    return time_now;
}

void set_now(Millis time) {
    time_now = time;
}

std::string timestamp(Millis time) {
    const std::time_t seconds = static_cast<std::time_t>(time / 1000);
    std::tm parts{};
    gmtime_r(&seconds, &parts);
    char text[64];
    const std::size_t len = std::strftime(text, sizeof text, "%Y%m%d-%H:%M:%S", &parts);
    std::snprintf(text + len, sizeof text - len, ".%03d", static_cast<int>(time % 1000));
    return text;
}

} // namespace sessions

// In place of the C library's.
extern "C" int gettimeofday(struct timeval *time, void *) noexcept {
    time->tv_sec = time_now / 1000;
    time->tv_usec = (time_now % 1000) * 1000;
    return 0;
}

extern "C" std::time_t time(std::time_t *place) noexcept {
    const auto seconds = static_cast<std::time_t>(time_now / 1000);
    if (place != nullptr) {
        *place = seconds;
    }
    return seconds;
}
