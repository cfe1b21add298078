// Which messages the gateway does not take: types (MsgType, 35) that no firm may send, and at times
// what begins something.
#define DOCTEST_CONFIG_IMPLEMENT_WITH_MAIN
#include <doctest/doctest.h>

#include "check.h"
#include "common/frame.h"
#include "firms/business_rejects.h"
#include "room_of_day.h"
#include "test_keys.h"

#include <algorithm>
#include <chrono>
#include <cstdint>
#include <memory>
#include <optional>
#include <string>
#include <string_view>

namespace gateway::tests {

namespace {

using namespace std::chrono_literals;

void are_unsupported(bool expected, const std::string &types) {
    std::string_view rest = types;
    while (!rest.empty()) {
        const std::size_t end = std::min(rest.find(' '), rest.size());
        const std::string_view type = rest.substr(0, end);
        check(is_unsupported(type) == expected, std::string(type));
        rest.remove_prefix(std::min(end + 1, rest.size()));
    }
}

} // namespace

TEST_CASE("a type of FIX that no firm may send") {
    are_unsupported(true, "6 7 8 9 B C D E F G H J K L M N P Q T V W X Y");
    are_unsupported(true, "a b c d e f g h i k l m n o p q r s t u v w x y z");
    are_unsupported(true, "AA AB AE AF AH AI AK AZ BA BE BF BM BZ CA CF CG");
}

TEST_CASE("one of FIX's users") {
    are_unsupported(true, "U U1 UA Uxyz");
}

TEST_CASE("a type that a firm may send, and a firm's BusinessMessageReject") {
    are_unsupported(false, "S Z AG R AJ j");
}

TEST_CASE("what is no type of FIX 5.0 SP2, and what is a session's own") {
    are_unsupported(false, "I O ZZ A1 1A Aa aA aa CH CZ DA 00 10 99 AAA ABCD u1");
    are_unsupported(false, "0 1 2 3 4 5 A");
    CHECK_FALSE(is_unsupported(""));
}

// ---------------------------------------------------------------- what begins something

std::string frame_with(const std::string &fields) {
    return framed(with_soh(fields));
}

// Its kind: R, S, or H of a hit; a dash where it begins nothing.
char kind_of(const std::string &fields) {
    const std::string frame = frame_with(fields);
    const auto business = business_in(frame);
    constexpr std::string_view kinds = "RSH";
    return business ? kinds.at(static_cast<std::size_t>(business->kind)) : '-';
}

TEST_CASE("which messages begin something") {
    CHECK(kind_of("35=R|131=R1|") == 'R');
    CHECK(kind_of("35=S|117=q1|") == 'S');
    CHECK(kind_of("35=AJ|693=h1|694=1|") == 'H');
    CHECK(kind_of("35=AJ|693=h1|694=01|") == 'H');
    for (const char *other : {"35=AJ|693=p1|694=6|", "35=AJ|693=p1|694=11|", "35=AJ|693=p1|",
                              "35=Z|298=4|694=1|", "35=AG|131=R1|", "35=j|", "35=0|"}) {
        same('-', kind_of(other), other);
    }
}

TEST_CASE("a firm's own name of a message") {
    constexpr const char *names = "117=a|131=b|693=c|";
    const auto name_of = [](const std::string &type) {
        const std::string frame = frame_with("35=" + type + "|" + names);
        return std::string(name_in(frame));
    };
    CHECK(name_of("S") == "a");
    CHECK(name_of("Z") == "a");
    CHECK(name_of("R") == "b");
    CHECK(name_of("AG") == "b");
    CHECK(name_of("AJ") == "c");
    CHECK(name_of("D") == "");
    CHECK(name_in(frame_with("35=S|131=b|")) == "");
}

// ---------------------------------------------------------------- when that is not taken

constexpr const char *a_request = "35=R|131=R1|48=BONDA|22=4|";
constexpr const char *a_quote = "35=S|117=q1|131=R1|48=BONDA|22=4|133=99.5|";
constexpr const char *a_hit = "35=AJ|693=h1|694=1|131=R1|117=Q1|";

Config config_of(const std::filesystem::path &folder, std::uint64_t reserve) {
    wait_for_room_of_day();
    Config config;
    config.configuration = "version = 1\n";
    config.firms = {today(), {"DLR1", "INV1"}};
    config.sqlite = folder / "day.db";
    config.disk = folder;
    config.reserve = reserve;
    give_keys(config, folder);
    return config;
}

// It opens at 8, closes at 16 and ends at 17.
TradingDay hours_of_today() {
    wait_for_room_of_day();
    const SystemSeconds midnight = midnight_of(today());
    return {today(), midnight + 8h, midnight + 16h, midnight + 17h};
}

// A venue's day, on which INV1 was shown Q1 in BONDA and Q2 in BONDB.
struct OneDay {
    explicit OneDay(std::uint64_t reserve = 0, std::optional<TradingDay> hours = std::nullopt)
        : config(config_of(folder.path(), reserve)),
          day(config, metrics, status, events, told, std::move(hours)) {
        shows("INV1", "117=Q1|48=BONDA|");
        shows("INV1", "117=Q2|48=BONDB|");
        shows("DLR1", "117=Q1|48=BONDB|");
    }
    void shows(const std::string &firm, const std::string &fields) {
        const std::string frame = frame_with("35=S|34=1|" + fields);
        day.shown_quotes.was_given(firm, GivenFields(frame));
    }
    // 380 and 58; empty where it is taken.
    std::string why(const std::string &fields, const Sender &sender) const {
        const std::string frame = frame_with(fields);
        const auto business = business_in(frame);
        check(business.has_value(), fields + " begins nothing");
        const auto why = why_not_taken(day, sender, *business);
        return why ? fmt::format("{} {}", why->reason, why->text) : "";
    }
    std::string why(const std::string &fields, std::chrono::seconds of_day = 9h) const {
        return why(fields, Sender{firm, midnight_of(today()) + of_day});
    }
    // By docs/CONNECTING.md: how 380 and 58 begin for a request, a quote and a hit; nothing where
    // it is taken.
    void answers(const std::string &request, const std::string &quote, const std::string &hit,
                 const Sender &sender) const {
        const auto holds = [](const std::string &wanted, const std::string &came) {
            return wanted.empty() ? came.empty() : came.starts_with(wanted);
        };
        CHECK_MESSAGE(holds(request, why(a_request, sender)), why(a_request, sender));
        CHECK_MESSAGE(holds(quote, why(a_quote, sender)), why(a_quote, sender));
        CHECK_MESSAGE(holds(hit, why(a_hit, sender)), why(a_hit, sender));
    }
    void answers(const std::string &request, const std::string &quote,
                 const std::string &hit) const {
        answers(request, quote, hit, Sender{firm, midnight_of(today()) + 9h});
    }

    const std::string firm = "INV1";
    const Scratch folder{"business"};
    Metrics metrics;
    std::shared_ptr<spdlog::logger> events = std::make_shared<spdlog::logger>("none");
    Status status{events};
    OperatorEvents told{metrics, events};
    const Config config;
    VenueDay day;
};

TEST_CASE("all is taken where nothing speaks against it") {
    OneDay().answers("", "", "");
    OneDay(1, hours_of_today()).answers("", "", "");
}

TEST_CASE("a halted venue takes nothing that begins something") {
    OneDay one;
    one.day.halts.set({"", true});
    const std::string words = "4 the venue is halted";
    one.answers(words, words, words);
    one.day.halts.set({"", false});
    one.answers("", "", "");
    one.day.halts.announce("");
    one.answers(words, words, words);
}

// A hit names no bond: it is that of the quote, as this investor was shown it.
TEST_CASE("a halted bond takes nothing that begins something") {
    OneDay one;
    one.day.halts.set({"BONDA", true});
    const std::string words = "4 this bond is halted";
    one.answers(words, words, words);
    CHECK(one.why("35=S|117=q1|131=R1|48=BONDB|22=4|") == "");
    CHECK(one.why("35=R|131=R1|48=BONDB|22=4|") == "");
    CHECK(one.why("35=AJ|693=h1|694=1|131=R1|117=Q2|48=BONDA|") == "");
    CHECK(one.why(a_hit, Sender{"DLR1", midnight_of(today())}) == "");
    CHECK(one.why("35=AJ|693=h1|694=1|131=R1|117=Q3|") == "");
}

TEST_CASE("a firm that is suspended begins nothing") {
    const OneDay one;
    const std::string words = "4 the operator has suspended this firm";
    Sender sender{one.firm, midnight_of(today()) + 9h};
    sender.is_suspended = true;
    one.answers(words, words, words, sender);
}

TEST_CASE("an operator ends the day") {
    OneDay one;
    one.day.ordered_end.announce(DayEnd::once_nothing_is_open);
    one.answers("4 the operator ends the day", "", "");
    one.day.ordered_end.order(DayEnd::now);
    one.answers("4 the operator ends the day", "", "4 the operator has ended the day");
    one.day.ordered_end.order(DayEnd::once_nothing_is_open); // takes nothing back
    one.answers("4 the operator ends the day", "", "4 the operator has ended the day");
}

TEST_CASE("a clock that was set stops requests and quotes") {
    OneDay one;
    one.day.clock_is_right = false;
    one.answers("4 the clock of the venue was set", "4 the clock of the venue was set", "");
}

TEST_CASE("a disk that is nearly full stops requests and quotes") {
    const OneDay one(std::uint64_t{1} << 62);
    const std::string words = "4 the disk of the venue's log is nearly full";
    one.answers(words, words, "");
}

TEST_CASE("a firm whose bytes are used up asks and quotes no more") {
    const OneDay one;
    const std::string words = "0 this firm has sent all the bytes that it may send in a day";
    Sender sender{one.firm, midnight_of(today()) + 9h};
    sender.are_bytes_used_up = true;
    one.answers(words, words, "", sender);
}

// By when a request was received.
TEST_CASE("a day closes for new requests") {
    const OneDay one(0, hours_of_today());
    const std::string words = fmt::format(
        "4 the venue has closed for new requests, at {}-16:00:00 UTC: those that are open go on to "
        "their deadlines",
        today());
    CHECK(one.why(a_request, 16h - 1s) == "");
    CHECK(one.why(a_request, 16h) == words);
    CHECK(one.why(a_request, 17h) == words);
    CHECK(one.why(a_quote, 16h) == "");
    CHECK(one.why(a_hit, 16h) == "");
}

// What is no moment of the day is the venue's to reject.
TEST_CASE("a deadline behind the day's end") {
    const OneDay one(0, hours_of_today());
    const std::string words =
        fmt::format("0 the day ends at {}-17:00:00 UTC, and this deadline (ExpireTime, 126) is "
                    "behind that: give one that is not",
                    today());
    const auto why = [&one](const std::string &deadline) {
        return one.why(fmt::format("{}126={}|", a_request, deadline));
    };
    for (const char *behind : {"17:00:01", "17:00:00.001", "23:59:59", "23:59:59.999"}) {
        same(words, why(today() + "-" + behind), behind);
    }
    for (const char *before : {"17:00:00", "17:00:00.000", "16:59:59.999", "09:00:00"}) {
        same<std::string>("", why(today() + "-" + before), before);
    }
    for (const std::string &none :
         {std::string("20990101-23:00:00"), std::string("23:00:00"), today() + "-23:00",
          today() + "-24:00:00", today() + "-23:00:00.0000", today() + " 23:00:00"}) {
        same<std::string>("", why(none), none);
    }
    CHECK(one.why(fmt::format("{}126={}-23:00:00|", a_quote, today())) == "");
}

// ---------------------------------------------------------------- a clock that is in doubt

// Once steps come to more than two seconds together, until an operator has accepted the clock.
TEST_CASE("steps of the clock add up until they are accepted") {
    OneDay one;
    VenueDay &day = one.day;
    day.take_step(1200ms, false);
    day.take_step(800ms, false);
    CHECK(day.clock_is_right);
    day.take_step(1us, false);
    CHECK_FALSE(day.clock_is_right);
    CHECK(day.clock_was_set_by() == 2000001us);
    day.take_clock_accepted();
    CHECK(day.clock_is_right);
    CHECK(day.clock_was_set_by() == 0us);
    day.take_step(-2s, false);
    CHECK(day.clock_is_right);
    day.take_step(-1us, false);
    CHECK_FALSE(day.clock_is_right);
}

// One that was measured here counts before the log has it, and counts once.
TEST_CASE("a step that the log does not have yet") {
    OneDay one;
    VenueDay &day = one.day;
    day.clock_set_meanwhile = 1500000;
    day.take_step(1500ms, true);
    CHECK(day.clock_was_set_by() == 1500ms);
    CHECK(day.clock_is_right);
    day.clock_set_meanwhile = 2000001;
    day.take_clock_accepted();
    CHECK_FALSE(day.clock_is_right);
    CHECK(day.clock_was_set_by() == 2000001us);
    day.take_step(2000001us, true);
    CHECK_FALSE(day.clock_is_right);
    CHECK(day.clock_was_set_by() == 2000001us);
    day.take_clock_accepted();
    CHECK(day.clock_is_right);
}

} // namespace gateway::tests
