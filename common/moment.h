// Moments of a day, and the clock that gives them.
#ifndef GATEWAY_MOMENT_H
#define GATEWAY_MOMENT_H

#include <chrono>
#include <compare>
#include <cstdint>
#include <mutex>
#include <optional>
#include <string>
#include <string_view>

namespace gateway {

// A moment of a day in UTC: milliseconds since midnight.
struct Moment {
    int milliseconds = 0;

    static constexpr int last = 24 * 60 * 60 * 1000 - 1;

    auto operator<=>(const Moment &) const = default;
};

// The same to the microsecond: when something came in at the gateway. The venue's own times are in
// milliseconds.
struct ExactMoment {
    std::int64_t microseconds = 0;

    static constexpr std::int64_t last = 24LL * 60 * 60 * 1'000'000 - 1;

    // The millisecond that it is in, and the end of one.
    Moment cut() const { return Moment{static_cast<int>(microseconds / 1000)}; }
    static ExactMoment end_of(Moment moment) {
        return ExactMoment{std::int64_t{moment.milliseconds} * 1000 + 999};
    }

    auto operator<=>(const ExactMoment &) const = default;
};

// HH:MM:SS.sss
std::string text_of(Moment moment);
// HH:MM:SS.ssssss
std::string text_of(ExactMoment moment);

// Reads HH:MM:SS.sss, and nothing else.
std::optional<Moment> moment_of(std::string_view text);
// Reads HH:MM:SS.ssssss, and nothing else.
std::optional<ExactMoment> exact_moment_of(std::string_view text);

// The UTC clock of one day. It never goes back: after a clock that was set back it stands until
// the old moment is passed. Where the machine's clock is set to another day it stands too, so that
// nothing is told that is due at the end of this one. Any thread may ask.
class DayClock {
  public:
    // date is YYYYMMDD.
    explicit DayClock(std::string date);

    // over: the clock has come to the next day; set: it was set to another one.
    enum class Day { goes_on, over, set };

    Moment now() { return exact_now().cut(); }
    ExactMoment exact_now();

    // The moment of this day at which the machine's clock said this; no moment before it is given
    // from now on. Of a time on another day, the moment at which the clock stands.
    ExactMoment moment_at(std::chrono::system_clock::time_point time);

    // No moment before this one is given from now on.
    void not_before(ExactMoment moment);

    Day day();

    // How long until the moment comes; nothing where it has come.
    std::chrono::milliseconds until(Moment moment);

    const std::string &date() const { return date_; }

  private:
    // What the machine's clock says, and one that only measures.
    struct Reading {
        std::string date;
        std::chrono::milliseconds time; // since 1970
        std::chrono::milliseconds measured;
        ExactMoment moment;
    };
    static Reading read();
    // The lock is held.
    Day day_of(const Reading &now);

    const std::string date_;
    std::mutex mutex_;
    std::optional<Reading> last_; // of this day
    ExactMoment latest_;
};

// The date of now in UTC, YYYYMMDD.
std::string today();

} // namespace gateway

#endif
