#include "config/config_day.h"

#include "base/printable.h"

#include <optional>
#include <stdexcept>

#include <fmt/format.h>

namespace gateway {

namespace {

// What the installed configuration has in the place of hours.
constexpr std::string_view to_be_chosen = "ask";

// Of a value that is at fault, in what is told of it.
constexpr std::size_t longest_shown = 40;

std::optional<std::chrono::minutes> time_in(Section &day, std::string_view key) {
    const std::string text = day.text(key);
    const auto time = time_of_day(text);
    if (day.has(key) && !time) {
        day.fail_at(key, fmt::format("= \"{}\": it has to be a time of day as HH:MM, from 00:00 to "
                                     "24:00",
                                     printable(text, longest_shown)));
    }
    return time;
}

void check_hours(const Section &day, const DayRules &rules) {
    if (rules.ends <= rules.opens) {
        day.fail_at(
            day.has("ends") ? "ends" : "opens",
            fmt::format("= \"{}\": a day opens before it ends, and this one opens at {} and "
                        "ends at {}",
                        text_of_time(day.has("ends") ? rules.ends : rules.opens),
                        text_of_time(rules.opens), text_of_time(rules.ends)));
    }
    if (rules.closes && (*rules.closes <= rules.opens || *rules.closes > rules.ends)) {
        day.fail_at("closes",
                    fmt::format("= \"{}\": it has to be after opens, {}, and not after ends, {}",
                                text_of_time(*rules.closes), text_of_time(rules.opens),
                                text_of_time(rules.ends)));
    }
}

std::set<unsigned> weekdays_in(Section &day) {
    std::set<unsigned> weekdays;
    for (const std::string &word : day.words("weekdays")) {
        const auto weekday = weekday_of(word);
        if (!weekday) {
            day.fail_at("weekdays", "has something else than Mon, Tue, Wed, Thu, Fri, Sat, Sun");
        }
        weekdays.insert(*weekday);
    }
    return weekdays;
}

std::set<std::string> holidays_in(Section &day, ConfigFiles &files) {
    const std::filesystem::path file = day.path("holidays");
    if (file.empty()) {
        return {};
    }
    std::string text;
    try {
        text = files.text(file);
    } catch (const std::runtime_error &fault) {
        day.fail_at("holidays", fmt::format("= \"{}\": {}", day.text("holidays"), fault.what()));
    }
    try {
        return holidays_of(text);
    } catch (const std::runtime_error &fault) {
        fail(file, fault.what());
    }
}

// Where no day may have such hours, it is the end that is at fault, if it stands there.
void check_days(const Section &day, const DayRules &rules, std::string_view date) {
    if (!is_zone(rules.zone)) {
        day.fail_at("zone", fmt::format("= \"{}\": the tz database has no such zone",
                                        printable(rules.zone, longest_shown)));
    }
    try {
        TradingDays(rules, midnight_of(date));
    } catch (const std::runtime_error &fault) {
        const bool has_hours = day.has("ends") || day.has("opens");
        day.fail_at(!has_hours        ? "zone"
                    : day.has("ends") ? "ends"
                                      : "opens",
                    fmt::format("is at fault: from {} to {} in {}: {}", text_of_time(rules.opens),
                                text_of_time(rules.ends), rules.zone, fault.what()));
    }
}

} // namespace

// A new installation opens no day of hours that nobody has chosen.
void check_chosen(Section &day, std::string_view key) {
    if (day.text(key) == to_be_chosen) {
        day.fail_at(key,
                    fmt::format("= \"{}\": say here when a trading day opens and when it ends, "
                                "as HH:MM in the zone of `zone`, and on which weekdays. Round "
                                "the clock is from \"00:00\" to \"24:00\"",
                                to_be_chosen));
    }
}

DayRules day_rules_of(Section day, ConfigFiles &files, std::string_view date) {
    DayRules rules;
    check_chosen(day, "opens");
    check_chosen(day, "ends");
    rules.zone = day.text("zone", "UTC");
    rules.opens = time_in(day, "opens").value_or(rules.opens);
    rules.closes = time_in(day, "closes");
    rules.ends = time_in(day, "ends").value_or(rules.ends);
    check_hours(day, rules);
    if (day.has("weekdays")) {
        rules.weekdays = weekdays_in(day);
    }
    rules.holidays = holidays_in(day, files);
    day.end();
    check_days(day, rules, date);
    return rules;
}

} // namespace gateway
