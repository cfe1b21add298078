#include "times.h"

#include <algorithm>

namespace session_model {

namespace {

constexpr std::size_t DATE_LENGTH = 8;
constexpr std::size_t TIME_LENGTH = 17; // `YYYYMMDD-HH:MM:SS`
constexpr std::size_t MOST_FRACTION = 12;
constexpr std::uint64_t HOUR = 3'600, MINUTE = 60;

std::uint64_t digits_at(Text text, std::size_t place, std::size_t count) {
    return number_in(text.substr(place, count)).value_or(0);
}

bool has_form(Text text, Text form) {
    return std::equal(text.begin(), text.end(), form.begin(), form.end(),
                      [](char byte, char of) { return of == '0' ? is_digit(byte) : byte == of; });
}

// A point and 1 to 12 digits, or nothing.
bool is_fraction(Text text) {
    return text.empty() ||
           (text.front() == '.' && text.size() <= 1 + MOST_FRACTION && are_digits(text.substr(1)));
}

// The milliseconds that a fraction is, cut.
std::uint64_t millis_of(Text fraction) {
    std::string digits(fraction.empty() ? fraction : fraction.substr(1, 3));
    digits.resize(3, '0');
    return digits_at(digits, 0, 3);
}

// Days by the calendar of Gregory: those since 1970, and 719,528.
std::uint64_t days_of(Text date) {
    constexpr std::uint64_t BEFORE[] = {0, 31, 59, 90, 120, 151, 181, 212, 243, 273, 304, 334};
    const std::uint64_t year = digits_at(date, 0, 4);
    const std::uint64_t month = digits_at(date, 4, 2);
    const std::uint64_t day = digits_at(date, 6, 2);
    // The leap day of a year counts from March on.
    const std::uint64_t leaps = month > 2 || year == 0 ? year : year - 1;
    return 365 * year + leaps / 4 + leaps / 400 - leaps / 100 + BEFORE[month - 1] + day;
}

std::string two_digits(std::uint64_t number) {
    return three_digits(static_cast<unsigned>(number)).substr(1);
}

} // namespace

bool is_date(Text text) {
    if (!has_form(text, "00000000")) {
        return false;
    }
    const std::uint64_t month = digits_at(text, 4, 2);
    const std::uint64_t day = digits_at(text, 6, 2);
    return month >= 1 && month <= 12 && day >= 1 && day <= 31;
}

std::optional<Time> time_in(Text text) {
    if (text.size() < TIME_LENGTH || !is_date(text.substr(0, DATE_LENGTH)) ||
        !has_form(text.substr(DATE_LENGTH, TIME_LENGTH - DATE_LENGTH), "-00:00:00") ||
        !is_fraction(text.substr(TIME_LENGTH))) {
        return std::nullopt;
    }
    const std::uint64_t hours = digits_at(text, 9, 2);
    const std::uint64_t minutes = digits_at(text, 12, 2);
    const std::uint64_t seconds = digits_at(text, 15, 2);
    if (hours > 23 || minutes > 59 || seconds > 60) {
        return std::nullopt;
    }
    const std::uint64_t moment = (hours * HOUR + minutes * MINUTE + seconds) * SECOND;
    return Time{text.substr(0, DATE_LENGTH), moment + millis_of(text.substr(TIME_LENGTH))};
}

std::uint64_t instant_of(const Time &time) {
    return days_of(time.date) * DAY + time.moment;
}

std::uint64_t instant_of(const Clock &clock) {
    return days_of(clock.date) * DAY + clock.moment;
}

bool is_of_day(const Time &time, const Clock &clock) {
    const std::uint64_t midnight = instant_of(clock) - clock.moment;
    const std::uint64_t instant = instant_of(time);
    return midnight <= instant && instant < midnight + DAY;
}

std::string written_time(Text date, std::uint32_t moment) {
    const std::uint64_t seconds = moment / SECOND;
    return std::string(date) + '-' + two_digits(seconds / HOUR) + ':' +
           two_digits(seconds / MINUTE % 60) + ':' + two_digits(seconds % 60) + '.' +
           three_digits(static_cast<unsigned>(moment % SECOND));
}

} // namespace session_model
