#include "common/moment.h"

#include "common/day_end.h"

#include <algorithm>
#include <ctime>

#include <fmt/format.h>

namespace gateway {

namespace {

using std::chrono::microseconds;
using std::chrono::milliseconds;

// By how much more or less than was measured a clock may have gone on until it was set.
constexpr auto most_drift = std::chrono::minutes(1);

// Goes on while the machine sleeps, too.
milliseconds measured_now() {
    timespec now{};
    ::clock_gettime(CLOCK_BOOTTIME, &now);
    return std::chrono::seconds(now.tv_sec) +
           std::chrono::duration_cast<milliseconds>(std::chrono::nanoseconds(now.tv_nsec));
}

std::string date_of(std::chrono::sys_days day) {
    const std::chrono::year_month_day date(day);
    return fmt::format("{:04}{:02}{:02}", static_cast<int>(date.year()),
                       static_cast<unsigned>(date.month()), static_cast<unsigned>(date.day()));
}

std::optional<int> two_digits(std::string_view text) {
    const auto digit = [](char c) { return c >= '0' && c <= '9'; };
    if (!digit(text[0]) || !digit(text[1])) {
        return std::nullopt;
    }
    return (text[0] - '0') * 10 + (text[1] - '0');
}

} // namespace

std::string text_of(Moment moment) {
    const int seconds = moment.milliseconds / 1000;
    return fmt::format("{:02}:{:02}:{:02}.{:03}", seconds / 3600, seconds / 60 % 60, seconds % 60,
                       moment.milliseconds % 1000);
}

std::string text_of(ExactMoment moment) {
    return fmt::format("{}{:03}", text_of(moment.cut()), moment.microseconds % 1000);
}

std::optional<Moment> moment_of(std::string_view text) {
    if (text.size() != 12 || text[2] != ':' || text[5] != ':' || text[8] != '.') {
        return std::nullopt;
    }
    const auto hours = two_digits(text.substr(0, 2));
    const auto minutes = two_digits(text.substr(3, 2));
    const auto seconds = two_digits(text.substr(6, 2));
    const auto hundredths = two_digits(text.substr(9, 2));
    const char last = text[11];
    if (!hours || !minutes || !seconds || !hundredths || last < '0' || last > '9') {
        return std::nullopt;
    }
    if (*hours > 23 || *minutes > 59 || *seconds > 59) {
        return std::nullopt;
    }
    return Moment{((*hours * 60 + *minutes) * 60 + *seconds) * 1000 + *hundredths * 10 +
                  (last - '0')};
}

std::optional<ExactMoment> exact_moment_of(std::string_view text) {
    constexpr std::size_t milliseconds_end = 12;
    if (text.size() != milliseconds_end + 3) {
        return std::nullopt;
    }
    const auto moment = moment_of(text.substr(0, milliseconds_end));
    const auto tens = two_digits(text.substr(milliseconds_end));
    const char last = text.back();
    if (!moment || !tens || last < '0' || last > '9') {
        return std::nullopt;
    }
    return ExactMoment{std::int64_t{moment->milliseconds} * 1000 + *tens * 10 + (last - '0')};
}

DayClock::DayClock(std::string date) : date_(std::move(date)) {
    day();
}

DayClock::Reading DayClock::read() {
    const auto now = std::chrono::floor<microseconds>(std::chrono::system_clock::now());
    const auto day = std::chrono::floor<std::chrono::days>(now);
    return {date_of(day), std::chrono::floor<milliseconds>(now.time_since_epoch()), measured_now(),
            ExactMoment{(now - day).count()}};
}

DayClock::Day day_by(const std::string &date, const std::string &now,
                     std::optional<milliseconds> drift) {
    if (now == date) {
        return DayClock::Day::goes_on;
    }
    const bool came = !drift || std::chrono::abs(*drift) <= most_drift;
    return came && now > date ? DayClock::Day::over : DayClock::Day::set;
}

DayClock::Day DayClock::day_of(const Reading &now) {
    const auto drift =
        last_ ? std::optional((now.time - last_->time) - (now.measured - last_->measured))
              : std::nullopt;
    const Day day = day_by(date_, now.date, drift);
    if (day == Day::goes_on) {
        last_ = now;
    }
    return day;
}

DayClock::Day DayClock::day() {
    const std::lock_guard lock(mutex_);
    return day_of(read());
}

ExactMoment DayClock::exact_now() {
    const std::lock_guard lock(mutex_);
    const Reading now = read();
    switch (day_of(now)) {
    case Day::goes_on:
        latest_ = std::max(latest_, now.moment);
        break;
    case Day::over:
        // There is no moment of another day: it stands at the end of this one.
        latest_ = ExactMoment{ExactMoment::last};
        break;
    case Day::set:
        break;
    }
    return latest_;
}

ExactMoment DayClock::moment_at(std::chrono::system_clock::time_point time) {
    const auto exact = std::chrono::floor<microseconds>(time);
    const auto day = std::chrono::floor<std::chrono::days>(exact);
    const std::lock_guard lock(mutex_);
    if (date_of(day) != date_) {
        return latest_;
    }
    const ExactMoment moment{(exact - day).count()};
    latest_ = std::max(latest_, moment);
    return moment;
}

void DayClock::not_before(ExactMoment moment) {
    const std::lock_guard lock(mutex_);
    latest_ = std::max(latest_, moment);
}

std::chrono::milliseconds DayClock::until(Moment moment) {
    return std::chrono::milliseconds(std::max(0, moment.milliseconds - now().milliseconds));
}

std::string today() {
    return date_of(std::chrono::floor<std::chrono::days>(std::chrono::system_clock::now()));
}

} // namespace gateway
