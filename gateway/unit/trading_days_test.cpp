// Trading days: weekdays, holidays and summer time, each worked out by hand from a calendar.
#define DOCTEST_CONFIG_IMPLEMENT_WITH_MAIN
#include <doctest/doctest.h>

#include "config/trading_days.h"

#include <array>
#include <cstdio>
#include <stdexcept>
#include <string>

#include <date/date.h>

using namespace gateway;
using namespace std::chrono_literals;

namespace {

std::set<unsigned> all_days() {
    return {0, 1, 2, 3, 4, 5, 6};
}

SystemSeconds at(const char *text) {
    int year = 0, month = 0, day = 0, hour = 0, minute = 0, second = 0;
    REQUIRE(std::sscanf(text, "%d-%d-%d %d:%d:%d", &year, &month, &day, &hour, &minute, &second) ==
            6);
    return date::sys_days(date::year(year) / month / day) + std::chrono::hours(hour) +
           std::chrono::minutes(minute) + std::chrono::seconds(second);
}

// London's week, with Boxing Day 2026 kept on Monday the 28th.
DayRules london() {
    DayRules rules;
    rules.zone = "Europe/London";
    rules.opens = 8h;
    rules.ends = 17h + 30min;
    rules.weekdays = {1, 2, 3, 4, 5};
    rules.holidays = {"2026-12-25", "2026-12-28"};
    return rules;
}

struct Case {
    const char *name;
    const char *now;
    const char *date;
    const char *opens;
    const char *ends;
};

constexpr std::array cases = {
    Case{"before it opens", "2026-11-27 07:59:59", "20261127", "2026-11-27 08:00:00",
         "2026-11-27 17:30:00"},
    Case{"while it trades", "2026-11-27 12:00:00", "20261127", "2026-11-27 08:00:00",
         "2026-11-27 17:30:00"},
    Case{"its last second", "2026-11-27 17:29:59", "20261127", "2026-11-27 08:00:00",
         "2026-11-27 17:30:00"},
    Case{"at its end, over a weekend", "2026-11-27 17:30:00", "20261130", "2026-11-30 08:00:00",
         "2026-11-30 17:30:00"},
    Case{"over Christmas, a weekend and Boxing Day", "2026-12-24 20:00:00", "20261229",
         "2026-12-29 08:00:00", "2026-12-29 17:30:00"},
    Case{"in summer an hour earlier in UTC", "2026-07-01 00:00:00", "20260701",
         "2026-07-01 07:00:00", "2026-07-01 16:30:00"},
    Case{"the first day of summer time", "2026-03-28 00:00:00", "20260330", "2026-03-30 07:00:00",
         "2026-03-30 16:30:00"},
    Case{"the first day of winter time", "2026-10-24 00:00:00", "20261026", "2026-10-26 08:00:00",
         "2026-10-26 17:30:00"},
};

std::string refused(DayRules rules) {
    try {
        TradingDays(std::move(rules), at("2026-11-27 00:00:00"));
    } catch (const std::runtime_error &fault) {
        return fault.what();
    }
    return "taken";
}

} // namespace

TEST_CASE("the first day that has not ended") {
    const TradingDays days(london(), at("2026-01-01 00:00:00"));
    for (const Case &each : cases) {
        SUBCASE(each.name) {
            const TradingDay day = days.first_after(at(each.now));
            CHECK(day.date == each.date);
            CHECK(day.opens == at(each.opens));
            CHECK(day.closes == at(each.ends));
            CHECK(day.ends == at(each.ends));
        }
    }
}

TEST_CASE("a day closes at a time of its zone, which summer time moves") {
    DayRules rules = london();
    rules.closes = 16h;
    const TradingDays days(rules, at("2026-01-01 00:00:00"));
    CHECK(days.first_after(at("2026-11-27 00:00:00")).closes == at("2026-11-27 16:00:00"));
    CHECK(days.first_after(at("2026-07-01 00:00:00")).closes == at("2026-07-01 15:00:00"));
}

// New York's clocks go from 02:00 to 03:00 on 8 March 2026, and from 02:00 back to 01:00 on
// 1 November.
TEST_CASE("an hour that comes twice or not at all") {
    DayRules rules;
    rules.zone = "America/New_York";
    rules.opens = 30min;
    rules.closes = 1h + 15min;
    rules.ends = 1h + 30min;
    const TradingDay twice =
        TradingDays(rules, at("2026-10-30 00:00:00")).first_after(at("2026-11-01 00:00:00"));
    CHECK(twice.date == "20261101");
    CHECK(twice.opens == at("2026-11-01 04:30:00"));
    CHECK(twice.closes == at("2026-11-01 05:15:00"));
    CHECK(twice.ends == at("2026-11-01 05:30:00"));
    rules.closes.reset();
    rules.ends = 2h + 30min;
    const TradingDay skipped =
        TradingDays(rules, at("2026-03-06 00:00:00")).first_after(at("2026-03-08 00:00:00"));
    CHECK(skipped.opens == at("2026-03-08 05:30:00"));
    CHECK(skipped.ends == at("2026-03-08 07:00:00"));
}

TEST_CASE("without rules every day is one, from midnight to midnight in UTC") {
    const TradingDays days(DayRules{}, at("2026-11-27 00:00:00"));
    const TradingDay day = days.first_after(at("2026-11-28 23:59:59"));
    CHECK(day.date == "20261128");
    CHECK(day.opens == at("2026-11-28 00:00:00"));
    CHECK(day.ends == at("2026-11-29 00:00:00"));
}

TEST_CASE("a day of another zone has the date of UTC, and that zone's weekday") {
    DayRules rules;
    rules.zone = "Pacific/Auckland";
    rules.opens = 14h;
    rules.ends = 24h;
    rules.weekdays = {5};
    // Auckland's Friday the 27th, thirteen hours ahead: its 14:00 is 01:00 in UTC.
    const TradingDay day =
        TradingDays(rules, at("2026-11-25 00:00:00")).first_after(at("2026-11-25 00:00:00"));
    CHECK(day.date == "20261127");
    CHECK(day.opens == at("2026-11-27 01:00:00"));
    CHECK(day.ends == at("2026-11-27 11:00:00"));
}

TEST_CASE("rules that give no lawful day are refused, in words") {
    DayRules rules = london();
    rules.zone = "Europe/Londn";
    CHECK(refused(rules) == "the zone Europe/Londn is none of the tz database");
    rules = london();
    rules.ends = 8h;
    CHECK(refused(rules) == "2026-11-27 would end before it opens");
    for (const auto closes : {8h, 18h}) {
        rules = london();
        rules.closes = closes;
        CHECK(refused(rules) == "2026-11-27 would not close between its opening and its end");
    }
    rules = london();
    rules.zone = "Asia/Tokyo";
    CHECK(refused(rules) ==
          "2026-11-27 would not lie within one day of UTC, whose date its messages bear");
    // In winter alone it goes over midnight.
    rules = london();
    rules.zone = "America/New_York";
    rules.ends = 19h + 30min;
    CHECK(refused(rules) ==
          "2026-11-26 would not lie within one day of UTC, whose date its messages bear");
    rules = london();
    rules.weekdays.clear();
    CHECK(refused(rules) == "no day of the year to come is a trading day");
    CHECK(refused(london()) == "taken");
}

TEST_CASE("times of day, weekdays and holidays are read exactly") {
    CHECK(time_of_day("08:30") == 8h + 30min);
    CHECK(time_of_day("24:00") == 24h);
    for (const char *wrong : {"24:01", "8:30", "08:60", "08-30", "0x:30", "08:30 ", ""}) {
        CAPTURE(wrong);
        CHECK_FALSE(time_of_day(wrong));
    }
    CHECK(weekday_of("Sun") == 0U);
    CHECK(weekday_of("Sat") == 6U);
    CHECK_FALSE(weekday_of("sun"));
    CHECK(holidays_of("# of 2026\n2026-12-25  # Christmas\r\n\n") ==
          std::set<std::string>{"2026-12-25"});
    // Of a file whose lines end as on Windows.
    CHECK(holidays_of("2026-12-25\r\n\r\n") == std::set<std::string>{"2026-12-25"});
    CHECK_THROWS_WITH(holidays_of("2026-12-25\n2026-02-30\n"),
                      "line 2: a holiday is a day as YYYY-MM-DD");
    CHECK(DayRules{}.weekdays == all_days());
}

TEST_CASE("zones of the tz database, and the begin of a date") {
    CHECK(is_zone("UTC"));
    CHECK(is_zone("America/New_York"));
    CHECK_FALSE(is_zone("Amerika"));
    CHECK_FALSE(is_zone(""));
    CHECK(midnight_of("20261128") == at("2026-11-28 00:00:00"));
    CHECK(midnight_of("20240229") == at("2024-02-29 00:00:00"));
}
