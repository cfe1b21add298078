#include "moment.h"

#include <charconv>
#include <cstdio>

namespace desk {

namespace {

// A number of exactly so many digits, at a place of a text.
std::optional<int> digits(std::string_view text, std::size_t from, std::size_t count) {
    const std::string_view part = text.substr(from, count);
    int number = 0;
    const auto [end, fault] = std::from_chars(part.data(), part.data() + part.size(), number);
    const bool is_whole = fault == std::errc() && end == part.data() + part.size();
    return is_whole && part.size() == count && part.front() != '-' ? std::optional(number)
                                                                   : std::nullopt;
}

std::optional<std::chrono::sys_days> day_of(std::string_view text) {
    const auto year = digits(text, 0, 4), month = digits(text, 4, 2), day = digits(text, 6, 2);
    if (!year || !month || !day) {
        return {};
    }
    const std::chrono::year_month_day date{std::chrono::year(*year),
                                           std::chrono::month(static_cast<unsigned>(*month)),
                                           std::chrono::day(static_cast<unsigned>(*day))};
    return date.ok() ? std::optional(std::chrono::sys_days(date)) : std::nullopt;
}

} // namespace

Moment now() {
    return std::chrono::floor<std::chrono::milliseconds>(std::chrono::system_clock::now());
}

std::optional<Moment> moment_of(std::string_view text) {
    constexpr std::size_t whole = 17, with_milliseconds = 21; // more digits are cut off
    if (text.size() < whole || text[8] != '-' || text[11] != ':' || text[14] != ':') {
        return {};
    }
    const auto day = day_of(text);
    const auto hours = digits(text, 9, 2), minutes = digits(text, 12, 2),
               seconds = digits(text, 15, 2);
    const auto fraction = text.size() == whole ? std::optional(0) : digits(text, 18, 3);
    const bool is_form =
        text.size() == whole || (text.size() >= with_milliseconds && text[whole] == '.');
    if (!is_form || !day || !hours || !minutes || !seconds || !fraction) {
        return {};
    }
    return Moment(*day) + std::chrono::hours(*hours) + std::chrono::minutes(*minutes) +
           std::chrono::seconds(*seconds) + std::chrono::milliseconds(*fraction);
}

std::string date_of(Moment moment) {
    const std::chrono::year_month_day date(std::chrono::floor<std::chrono::days>(moment));
    char text[16];
    std::snprintf(text, sizeof text, "%04d%02u%02u", static_cast<int>(date.year()),
                  static_cast<unsigned>(date.month()), static_cast<unsigned>(date.day()));
    return text;
}

std::string fix_text(Moment moment) {
    const std::chrono::hh_mm_ss time(moment - std::chrono::floor<std::chrono::days>(moment));
    char text[20];
    std::snprintf(text, sizeof text, "-%02d:%02d:%02d.%03d", static_cast<int>(time.hours().count()),
                  static_cast<int>(time.minutes().count()),
                  static_cast<int>(time.seconds().count()),
                  static_cast<int>(time.subseconds().count()));
    return date_of(moment) + text;
}

} // namespace desk
