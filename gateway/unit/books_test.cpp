// What the gateway reads off the venue's messages: live quotes, quotes that were shown, halts,
// trades, and how far the venue has come.
#define DOCTEST_CONFIG_IMPLEMENT_WITH_MAIN
#include <doctest/doctest.h>

#include "check.h"
#include "common/frame.h"
#include "venue/halts.h"
#include "venue/live_quotes.h"
#include "venue/shown_quotes.h"
#include "venue/trades.h"
#include "venue/venue_progress.h"

#include <cstdint>
#include <future>
#include <set>
#include <stop_token>
#include <string>
#include <vector>

#include <fmt/format.h>

namespace gateway::tests {

using namespace std::chrono_literals;

std::string frame(const std::string &type, const std::string &fields) {
    return with_soh("8=FIXT.1.1|9=99|35=" + type + "|49=VENUE|56=DLR1|34=7|" + fields + "10=000|");
}

// The line of a dealer's message, as the log has it.
std::string line_of(const std::string &trader) {
    std::string line = "hex DLR1 09:00:00.000 ";
    append_hexadecimal(line, frame("S", "50=" + trader + "|"));
    return line;
}

struct Dealer {
    LiveQuotes quotes;

    // The names of what is live once this is given: name, request and trader of each.
    std::string given(const std::string &type, const std::string &fields) {
        const std::string message = frame(type, fields);
        quotes.was_given(line_of("T1"), "DLR1", GivenFields(message));
        std::string text;
        for (const LiveQuotes::Live &each : quotes.of("DLR1")) {
            text += each.quote + "/" + each.request + "/" + each.trader + " ";
        }
        return text;
    }
};

// What is read of a message, in the order of the tags.
std::string read_of(const std::string &message) {
    const GivenFields fields(message);
    return fmt::format("34={} 35={} 48={} 52={} 117={} 131={} 297={} 300={} 453={} 693={}",
                       fields.number, fields.type, fields.bond, fields.moment, fields.quote,
                       fields.request, fields.status, fields.reason, fields.dealers,
                       fields.response);
}

TEST_CASE("of a message each field is read that somebody looks at") {
    struct Case {
        std::string what;
        std::string message;
        std::string read;
    };
    const std::vector<Case> cases = {
        {"each of them",
         frame("AI", "52=20250314-09:30:00.125|48=BONDA|117=a|131=R1|297=5|300=99|453=2|693=h|"),
         "34=7 35=AI 48=BONDA 52=20250314-09:30:00.125 117=a 131=R1 297=5 300=99 453=2 693=h"},
        {"of each the first",
         with_soh("8=FIXT.1.1|35=S|34=7|48=BOND|52=09:00|117=q|131=r|297=0|300=99|453=2|693=p|"
                  "35=x|34=x|48=x|52=x|117=x|131=x|297=x|300=x|453=x|693=x|"),
         "34=7 35=S 48=BOND 52=09:00 117=q 131=r 297=0 300=99 453=2 693=p"},
        {"the first of all is passed over, and what is no field",
         with_soh("35=S|34|117==|131=|x=1|48x=2|453="),
         "34= 35= 48= 52= 117== 131= 297= 300= 453= 693="},
        {"a tag is a whole one, in front of its value",
         with_soh("8=35|35=S|35=AI|58=x=117=y|117=a|1170=b|"),
         "34= 35=S 48= 52= 117=a 131= 297= 300= 453= 693="},
    };
    for (const Case &each : cases) {
        CAPTURE(each.what);
        CHECK(read_of(each.message) == each.read);
    }
}

// By docs/FORMATS.md, "Written messages", to a dealer.
TEST_CASE("a quote lives from its acceptance to its end") {
    Dealer dealer;
    CHECK(dealer.given("AI", "131=R1|117=a|297=5|300=99|") == "");
    CHECK(dealer.given("AI", "131=R1|117=a|297=0|") == "a/R1/T1 ");
    CHECK(dealer.given("AI", "131=R2|117=b|297=0|") == "a/R1/T1 b/R2/T1 ");
    CHECK(dealer.given("AI", "131=R1|117=c|297=0|") == "b/R2/T1 c/R1/T1 ");
    CHECK(dealer.given("AI", "131=R1|117=d|297=5|300=99|") == "b/R2/T1 c/R1/T1 ");
    CHECK(dealer.given("AI", "117=a|297=17|") == "b/R2/T1 c/R1/T1 ");
    CHECK(dealer.given("AI", "117=c|297=5|300=6|") == "b/R2/T1 c/R1/T1 ");
    CHECK(dealer.given("AI", "117=c|297=17|") == "b/R2/T1 ");
    CHECK(dealer.given("AI", "131=R1|117=e|297=0|") == "b/R2/T1 e/R1/T1 ");
    CHECK(dealer.given("AI", "117=b|297=5|300=4|") == "e/R1/T1 ");
    CHECK(dealer.given("AI", "693=h|131=R1|117=f|297=0|") == "e/R1/T1 ");
    CHECK(dealer.given("8", "131=R1|117=e|297=17|") == "e/R1/T1 ");
    CHECK(dealer.given("AI", "131=R1|297=0|") == "e/R1/T1 ");
    CHECK(dealer.given("AJ", "131=R9|") == "e/R1/T1 ");
    CHECK(dealer.given("AJ", "131=R1|") == "");
    CHECK(dealer.quotes.of("DLR2").empty());
}

TEST_CASE("a quote that was shown names its bond") {
    ShownQuotes shown;
    const auto given = [&shown](const std::string &firm, const std::string &message) {
        shown.was_given(firm, GivenFields(message));
    };
    given("INV1", frame("S", "117=Q1|48=BONDA|"));
    given("INV1", frame("S", "117=Q2|48=BONDB|"));
    given("INV2", frame("S", "117=Q1|48=BONDB|"));
    given("INV1", frame("AI", "117=Q3|48=BONDA|"));
    CHECK(shown.bond_of("INV1", "Q1") == "BONDA");
    CHECK(shown.bond_of("INV1", "Q2") == "BONDB");
    CHECK(shown.bond_of("INV2", "Q1") == "BONDB");
    CHECK(shown.bond_of("INV1", "Q3") == "");
    CHECK(shown.bond_of("INV3", "Q1") == "");
    for (const char *const none : {"", "Q", "Q0", "Q01", "q1", "Q1 ", "Q-1", "Q4294967297"}) {
        CHECK(shown.bond_of("INV1", none) == "");
    }
    given("INV1", frame("S", "117=Q9|48=BONDC|")); // the venue leaves none out
    CHECK(shown.bond_of("INV1", "Q9") == "");
    given("INV1", frame("S", "117=Q1|48=BONDC|")); // all is given again
    given("INV1", frame("S", "117=Q3|48=BONDA|"));
    CHECK(shown.bond_of("INV1", "Q1") == "BONDC");
    CHECK(shown.bond_of("INV1", "Q2") == "BONDB");
    CHECK(shown.bond_of("INV1", "Q3") == "BONDA");
}

HaltSet halt(const std::string &bond, bool is_halted) {
    HaltSet set;
    set.bond = bond;
    set.is_halted = is_halted;
    return set;
}

TEST_CASE("a halt counts from its announcement to its end") {
    Halts halts;
    CHECK(halts.words() == "no");
    halts.announce("B");
    halts.set(halt("A", true));
    CHECK(halts.words() == "A B");
    CHECK(halts.has("A"));
    CHECK(halts.has("B"));
    CHECK_FALSE(halts.has("C"));
    CHECK_FALSE(halts.is_venue_halted());
    CHECK(halts.bonds() == std::set<std::string>{"A", "B"});
    halts.set(halt("B", true)); // what was announced is committed
    halts.set(halt("B", false));
    CHECK_FALSE(halts.has("B"));
    halts.announce("A");
    halts.announce("A");
    halts.set(halt("A", true));
    halts.set(halt("A", false)); // of the first; the second comes still
    CHECK(halts.has("A"));
    halts.set(halt("A", true));
    halts.set(halt("A", false));
    CHECK(halts.words() == "no");
    halts.set(halt("", true));
    CHECK(halts.words() == "yes");
    CHECK(halts.has("C"));
    CHECK(halts.is_venue_halted());
    CHECK(halts.bonds().empty());
}

TEST_CASE("a trade is made void once") {
    Trades trades;
    trades.add("20261130-INV1-DLR1-1");
    CHECK(trades.has("20261130-INV1-DLR1-1"));
    CHECK_FALSE(trades.has("20261130-INV1-DLR1-2"));
    CHECK(trades.make_void("20261130-INV1-DLR1-1"));
    CHECK_FALSE(trades.make_void("20261130-INV1-DLR1-1"));
}

constexpr Moment at_nine{9 * 60 * 60 * 1000};
constexpr Moment at_ten{10 * 60 * 60 * 1000};

TEST_CASE("a place is answered") {
    VenueProgress progress;
    const std::stop_token never;
    CHECK_FALSE(progress.last_place());
    CHECK_FALSE(progress.wait(0, 0ms, never));
    progress.put(0, std::nullopt);
    CHECK(progress.last_place() == 0U);
    CHECK(progress.wait(0, 0ms, never));
    CHECK_FALSE(progress.wait(1, 0ms, never));
    progress.put(3, std::nullopt);
    CHECK(progress.wait(3, 0ms, never));
    CHECK(progress.wait(2, never));
    CHECK_FALSE(progress.wait(4, 0ms, never));
    auto waiting = std::async([&] { return progress.wait(4, never); });
    progress.put(4, std::nullopt);
    CHECK(waiting.get());
    std::stop_source stop;
    auto stopped = std::async([&] { return progress.wait(5, stop.get_token()); });
    stop.request_stop();
    CHECK_FALSE(stopped.get());
    progress.begin(4);
    CHECK_FALSE(progress.last_place());
}

// A process that begins is fed what was there before, and what is due by that is over.
TEST_CASE("a deadline is told once what was there is answered") {
    VenueProgress progress;
    const std::stop_token never;
    progress.begin(3);
    progress.put(2, at_nine);
    CHECK_FALSE(progress.deadline());
    progress.put(3, at_nine);
    REQUIRE(progress.deadline());
    CHECK(progress.deadline()->moment == at_nine);
    CHECK(progress.deadline()->place == 3);
    CHECK(progress.wait_for_deadline(never)->moment == at_nine);
    auto other = std::async([&] { progress.wait_for_other(at_nine, 60s, never); });
    progress.put(4, at_ten);
    other.get();
    CHECK(progress.deadline()->place == 4);
    progress.wait_for_other(at_ten, 0ms, never);
    progress.put(5, std::nullopt);
    CHECK_FALSE(progress.deadline());
    auto next = std::async([&] { return progress.wait_for_deadline(never); });
    progress.put(6, at_ten);
    CHECK(next.get()->place == 6);
    progress.begin(0);
    CHECK_FALSE(progress.deadline());
    std::stop_source stop;
    stop.request_stop();
    CHECK_FALSE(progress.wait_for_deadline(stop.get_token()));
}

// The clock of a day that has not come stands where it was set.
TEST_CASE("a deadline is due once its moment has come") {
    DayClock clock("29991231");
    VenueProgress progress;
    const std::stop_token never;
    REQUIRE_FALSE(progress.due(clock));
    CHECK(progress.wait_until_none_is_due(clock, 1h, never));
    progress.put(7, at_nine);
    clock.not_before(ExactMoment{std::int64_t{at_nine.milliseconds} * 1000 - 1});
    REQUIRE_FALSE(progress.due(clock));
    CHECK(progress.wait_until_none_is_due(clock, 1h, never));
    clock.not_before(ExactMoment{std::int64_t{at_nine.milliseconds} * 1000});
    REQUIRE(progress.due(clock));
    CHECK(progress.due(clock)->moment == at_nine);
    CHECK(progress.due(clock)->place == 7);
    CHECK_FALSE(progress.wait_until_none_is_due(clock, 0ms, never));
    std::stop_source stop;
    stop.request_stop();
    CHECK_FALSE(progress.wait_until_none_is_due(clock, 1h, stop.get_token()));
    auto other = std::async([&] { return progress.wait_until_none_is_due(clock, 1h, never); });
    progress.put(8, at_ten);
    CHECK(other.get());
    progress.put(9, at_nine);
    auto none = std::async([&] { return progress.wait_until_none_is_due(clock, 1h, never); });
    progress.put(10, std::nullopt);
    CHECK(none.get());
}

} // namespace gateway::tests
