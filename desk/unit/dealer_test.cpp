// The dealer's day: its quotes, its exposure, and how requests end.
#include <doctest/doctest.h>

#include "checks.h"
#include "dealer_day.h"
#include "unit.h"

#include <nlohmann/json.hpp>

using namespace desk;
using desk_tests::entry;
using Kind = Entry::Kind;
using State = DealerRequest::State;
using Quote = OwnQuote::State;

namespace {

// A day on which two requests of two millions were shown.
struct Fixture {
    DealerDay day;
    int number = 0; // of the venue's last message
    Fixture() {
        show("R1", "1");
        show("R2", "2");
    }
    void receive(const std::string &text) {
        ++number;
        day.apply(entry(Kind::received, 1000 + number,
                        "34=" + std::to_string(number) + "|1181=" + std::to_string(number) +
                            "|52=20260314-00:00:01.000|" + text));
    }
    void show(const std::string &id, const std::string &side) {
        receive("35=R|131=" + id + "|48=BONDA0000001|54=" + side +
                "|38=2000000|126=20260314-00:05:00.000|448=INV1|");
    }
    void send(int own, const std::string &text) {
        day.apply(entry(Kind::sent, 1000 + number, "34=" + std::to_string(own) + "|50=T3|" + text));
    }
    void quote_live(int own, const std::string &id, const std::string &request) {
        send(own,
             "35=S|131=" + request + "|117=" + id + (request == "R1" ? "|133=99.5|" : "|132=99|"));
        receive("35=AI|131=" + request + "|117=" + id + "|297=0|");
    }
    const DealerRequest &shown(const std::string &id) const { return *day.request(id); }
};

} // namespace

TEST_CASE_FIXTURE(Fixture,
                  "a quote is live when the venue says so, and counts as exposure from then on") {
    CHECK(day.usage().open == 2);
    send(2, "35=S|131=R1|117=q1|133=99.5|62=20260314-00:02:00.000|");
    CHECK(shown("R1").live() == nullptr);
    CHECK(shown("R1").awaits(Act::quote));
    CHECK(day.usage().exposure == 0);
    CHECK(day.exposure_of("T3") == 2'000'000);
    receive("35=AI|131=R1|117=q1|297=0|");
    REQUIRE(shown("R1").live() != nullptr);
    CHECK(shown("R1").live()->price == Price{99 * 256 + 128});
    CHECK(shown("R1").pending.empty());
    CHECK(day.usage().exposure == 2'000'000);
    CHECK(day.usage().accepted == 1);
}

TEST_CASE_FIXTURE(Fixture,
                  "a replacement takes the place of the live quote, a refused one does not") {
    quote_live(2, "q1", "R1");
    quote_live(3, "q2", "R1");
    CHECK(shown("R1").quotes[0].state == Quote::replaced);
    CHECK(shown("R1").live()->id == "q2");
    CHECK(day.usage().exposure == 2'000'000);
    CHECK(day.usage().accepted == 2);
    send(4, "35=S|131=R1|117=q3|133=99.25|");
    receive("35=AI|131=R1|117=q3|297=5|300=3|58=the exposure would be above its limit|");
    CHECK(shown("R1").live()->id == "q2");
    CHECK(shown("R1").quotes[2].state == Quote::refused);
    CHECK(shown("R1").told->text == "Quote 99.25 refused: the exposure would be above its limit");
    CHECK(day.exposure_of("T3") == 2'000'000);
}

TEST_CASE_FIXTURE(Fixture, "a quote that was never delivered is told so and counts no more") {
    send(2, "35=S|131=R1|117=q1|133=99.5|");
    day.apply(entry(Kind::undelivered, 9000, "2"));
    CHECK(shown("R1").quotes[0].state == Quote::undelivered);
    CHECK(shown("R1").pending.empty());
    CHECK(day.exposure_of("T3") == 0);
    CHECK(shown("R1").told->text.rfind("Quote 99.5 never delivered", 0) == 0);
}

TEST_CASE_FIXTURE(Fixture, "a withdrawal is done when it is confirmed") {
    quote_live(2, "q1", "R1");
    send(3, "35=Z|298=5|117=q1|");
    CHECK(shown("R1").awaits(Act::withdraw));
    CHECK(day.usage().exposure == 2'000'000);
    receive("35=AI|117=q1|297=17|");
    CHECK(shown("R1").quotes[0].state == Quote::withdrawn);
    CHECK(shown("R1").pending.empty());
    CHECK(day.usage().exposure == 0);
}

TEST_CASE_FIXTURE(Fixture, "a withdrawal that came too late: the quote was hit") {
    quote_live(2, "q1", "R1");
    send(3, "35=Z|298=5|117=q1|");
    receive("35=AI|117=q1|297=5|300=4|");
    CHECK(shown("R1").told->text ==
          "Withdrawal refused: too late: the quote was hit, or the request has ended");
    CHECK(shown("R1").live() != nullptr);
    receive("35=AJ|693=N1|131=R1|117=q1|694=1|133=99.5|1003=20260314-INV1-DLR3-1|");
    CHECK(shown("R1").state == State::won);
    CHECK(shown("R1").result == Price{99 * 256 + 128});
    CHECK(shown("R1").quotes[0].state == Quote::hit);
    CHECK(shown("R1").trade == "20260314-INV1-DLR3-1");
    CHECK(day.usage().exposure == 0);
    CHECK(day.usage().open == 1);
}

TEST_CASE_FIXTURE(Fixture, "a cancel of all waits for each quote, and for one that is on its way") {
    quote_live(2, "q1", "R1");
    send(3, "35=S|131=R2|117=q2|132=99|");
    send(4, "35=Z|298=4|");
    CHECK(shown("R1").awaits(Act::withdraw));
    CHECK(shown("R2").awaits(Act::withdraw));
    receive("35=AI|131=R2|117=q2|297=0|");
    CHECK(shown("R2").awaits(Act::withdraw));
    receive("35=AI|117=q1|297=17|");
    CHECK(shown("R1").pending.empty());
    CHECK(day.notice()->text == "Cancel all sent by T3, not answered yet");
    receive("35=AI|117=q2|297=17|");
    CHECK(shown("R2").pending.empty());
    CHECK(day.usage().exposure == 0);
    CHECK(day.notice()->text == "Cancel all: 2 quotes withdrawn, none is live");
}

TEST_CASE_FIXTURE(Fixture, "of a cancel of all is told what it withdrew, not what was hit first") {
    quote_live(2, "q1", "R1");
    quote_live(3, "q2", "R2");
    send(4, "35=Z|298=4|");
    receive("35=AJ|693=N1|131=R1|117=q1|694=1|133=99.5|");
    receive("35=AI|117=q2|297=17|");
    CHECK(day.notice()->text == "Cancel all: 1 quote withdrawn, none is live");
}

TEST_CASE_FIXTURE(Fixture, "of a cancel of all is told what it withdrew, not what its trader did") {
    quote_live(2, "q1", "R1");
    send(3, "35=Z|298=4|");
    quote_live(4, "q2", "R2");
    send(5, "35=Z|298=5|117=q2|");
    receive("35=AI|117=q2|297=17|");
    CHECK(day.notice()->text == "Cancel all sent by T3, not answered yet");
    receive("35=AI|117=q1|297=17|");
    CHECK(day.notice()->text == "Cancel all: 1 quote withdrawn, none is live");
}

TEST_CASE_FIXTURE(Fixture, "a quote that the venue does not take has ended, in the venue's words") {
    send(2, "35=S|131=R1|117=q1|133=99.5|");
    day.apply(entry(Kind::received, 1500,
                    "35=j|34=3|52=20260314-00:00:02.000|45=2|372=S|379=q1|380=4|"
                    "58=the venue's clock is in doubt|"));
    CHECK(shown("R1").quotes[0].state == Quote::refused);
    CHECK(shown("R1").told->text == "Quote 99.5 refused: the venue's clock is in doubt");
    CHECK(shown("R1").pending.empty());
    CHECK(day.exposure_of("T3") == 0);
    CHECK(day.alarm().empty());
}

TEST_CASE_FIXTURE(Fixture, "a cancel of all that finds nothing is told, and waits for nothing") {
    send(2, "35=S|131=R1|117=q1|133=99.5|");
    send(3, "35=Z|298=4|");
    receive("35=AI|131=R1|117=q1|297=5|300=8|");
    CHECK(shown("R1").pending.empty());
    receive("35=AI|297=9|");
    CHECK(day.notice()->text == "Cancel all: there was no live quote");
    CHECK_FALSE(day.notice()->is_refusal);
    receive("35=3|45=99|371=0|373=11|");
    CHECK(day.notice()->text.rfind("A message of this desk was refused: ", 0) == 0);
    CHECK(day.notice()->is_refusal);
}

TEST_CASE_FIXTURE(Fixture, "each end of a request has its name") {
    struct Row {
        const char *type;
        State state;
    };
    for (const Row &row : {Row{"3", State::expired}, Row{"4", State::cover}, Row{"5", State::away},
                           Row{"6", State::passed}}) {
        Fixture one;
        one.quote_live(2, "q1", "R1");
        one.receive(std::string("35=AJ|693=N1|131=R1|694=") + row.type + "|");
        CHECK(one.shown("R1").state == row.state);
        CHECK(one.shown("R1").result == Price{99 * 256 + 128});
        CHECK(one.shown("R1").quotes[0].state == Quote::ended);
        CHECK(one.day.usage().exposure == 0);
    }
}

TEST_CASE_FIXTURE(Fixture,
                  "how a request ended stays told, also where a quote came too late for it") {
    quote_live(2, "q1", "R1");
    send(3, "35=S|131=R1|117=q2|133=99.25|");
    receive("35=AJ|693=N1|131=R1|117=q1|694=1|133=99.5|");
    receive("35=AI|131=R1|117=q2|297=5|300=4|");
    CHECK(shown("R1").state == State::won);
    CHECK(shown("R1").told->text == "Done");
    CHECK(shown("R1").pending.empty());
    CHECK(shown("R1").quotes[1].state == Quote::refused);
    CHECK(day.exposure_of("T3") == 0);
}

TEST_CASE_FIXTURE(Fixture, "a decline, and one that is refused") {
    send(2, "35=AG|131=R1|658=10|");
    receive("35=AI|131=R1|297=11|");
    CHECK(shown("R1").is_declined);
    quote_live(3, "q1", "R2");
    send(4, "35=AG|131=R2|658=10|");
    receive("35=AI|131=R2|297=5|300=99|58=a quote on the request is live|");
    CHECK_FALSE(shown("R2").is_declined);
    CHECK(shown("R2").told->text == "Decline refused: a quote on the request is live");
}

TEST_CASE_FIXTURE(Fixture, "a quote that the journal does not have is an alarm") {
    receive("35=AI|117=other|297=17|");
    CHECK(day.alarm().find("incomplete") != std::string::npos);
    Fixture one;
    one.receive("35=AJ|693=N1|131=R1|117=other|694=1|133=99.5|");
    CHECK(one.shown("R1").state == State::won);
    CHECK(one.day.alarm().find("incomplete") != std::string::npos);
}

TEST_CASE_FIXTURE(Fixture, "the desk helps before it sends") {
    const Moment at = *moment_of("20260314-00:00:04.000");
    const Trader trader{"dora", "", "T3", true, {}, {}};
    Market market{{Bond{"BONDA0000001", "Alder", 128}}, {}, {}};
    market.limits.exposure = 3'000'000;
    market.limits.quotes = 2;
    const command::Quote quote{"R1", Price{99 * 256}, {}, ""};
    const auto why = [&](const command::Quote &one,
                         const Trader &who = {"dora", "", "T3", true, {}, {}}) {
        return why_not(one, who, market, day, at);
    };
    CHECK(why(quote).empty());
    CHECK_FALSE(why({"R9", Price{99 * 256}, {}, ""}).empty());
    CHECK(why({"R1", Price{99 * 256 + 1}, {}, ""}) == "The price is off the bond's grid of 1/128.");
    CHECK_FALSE(why({"R1", Price{0}, {}, ""}).empty());
    CHECK_FALSE(why({"R1", Price{99 * 256}, {}, "q0"}).empty());
    Trader small = trader;
    small.exposure = 1'000'000;
    CHECK(why(quote, small).rfind("Your own exposure", 0) == 0);
    quote_live(2, "q1", "R1");
    CHECK(why({"R2", Price{99 * 256}, {}, ""}) ==
          "The exposure would be 4,000,000 of 3,000,000: withdraw another quote first.");
    CHECK(why({"R1", Price{98 * 256}, {}, "q1"}).empty());
    // What a trader's own limit allows is the trader's own quotes, and no colleague's that are
    // replaced.
    small.exposure = 2'000'000;
    CHECK(why({"R1", Price{98 * 256}, {}, "q1"}, small).empty());
    Trader colleague = small;
    colleague.name = "T4";
    colleague.exposure = 1'000'000;
    CHECK(why({"R1", Price{98 * 256}, {}, "q1"}, colleague).rfind("Your own exposure", 0) == 0);
    CHECK(why_not(command::Withdraw{"R1"}, day).empty());
    CHECK_FALSE(why_not(command::Withdraw{"R2"}, day).empty());
    CHECK(why_not(command::Decline{"R1"}, day) == "Withdraw the live quote first.");
    CHECK(why_not(command::Decline{"R2"}, day).empty());
    send(3, "35=Z|298=5|117=q1|");
    CHECK_FALSE(why_not(command::Withdraw{"R1"}, day).empty());
    CHECK(why({"R1", Price{98 * 256}, {}, "q1"}) ==
          "Wait: the withdrawal of T3 is not answered yet.");
}

TEST_CASE_FIXTURE(Fixture, "a price outside the bond's band is not sent, and its ends are") {
    const Moment at = *moment_of("20260314-00:00:04.000");
    const Trader trader{"dora", "", "T3", true, {}, {}};
    const Price low{99 * 256}, high{101 * 256};
    Market market{{Bond{"BONDA0000001", "Alder", 128, {low, high}}}, {}, {}};
    market.limits.exposure = 3'000'000;
    market.limits.quotes = 2;
    const auto why = [&](int price) {
        return why_not(command::Quote{"R1", Price{price}, {}, ""}, trader, market, day, at);
    };
    const std::string outside = "The price is outside the bond's band of 99 to 101.";
    CHECK(why(low.in_256ths - 2) == outside);
    CHECK(why(low.in_256ths).empty());
    CHECK(why(high.in_256ths).empty());
    CHECK(why(high.in_256ths + 2) == outside);
    CHECK(why(high.in_256ths + 1) == "The price is off the bond's grid of 1/128.");
}

TEST_CASE_FIXTURE(Fixture, "the same entries give the same views, at once and later") {
    quote_live(2, "q1", "R1");
    send(3, "35=Z|298=4|");
    receive("35=AI|117=q1|297=17|");
    Fixture again;
    again.quote_live(2, "q1", "R1");
    again.send(3, "35=Z|298=4|");
    again.receive("35=AI|117=q1|297=17|");
    CHECK(day.view("R1") == again.day.view("R1"));
    CHECK(day.view("R1")["history"].size() == 2);
    CHECK(day.requests() == std::vector<std::string>{"R1", "R2"});
}

TEST_CASE_FIXTURE(Fixture, "a claim is its trader's until it is released or handed over") {
    const Trader tess{"tess", "", "T3", true, {}, {}}, tom{"tom", "", "T4", true, {}, {}},
        lou{"lou", "", "T5", false, {}, {}};
    const auto note = [&](const std::string &text) { day.apply(entry(Kind::note, 2000, text)); };
    CHECK(why_not(command::ClaimRequest{"R9"}, tess, day) == "The request has ended.");
    CHECK(why_not(command::ReleaseRequest{"R1"}, day) == "Nobody has claimed it.");
    CHECK(why_not(command::ClaimRequest{"R1"}, tess, day).empty());
    day.take_changed();
    note(R"({"do": "claim", "request": "R1", "login": "tess", "trader": "T3"})");
    CHECK(day.take_changed() == std::set<std::string>{"R1"});
    REQUIRE(shown("R1").claim);
    CHECK(shown("R1").claim->login == "tess");
    CHECK(shown("R1").history.back().text == "Claimed");
    CHECK(shown("R1").history.back().trader == "T3");
    CHECK(why_not(command::ClaimRequest{"R1"}, tess, day) == "You have claimed it already.");
    CHECK(why_not(command::ClaimRequest{"R1"}, tom, day) == "T3 has claimed it.");
    const std::vector<Trader> traders{tess, tom, lou};
    CHECK(why_not(command::HandOver{"R1", "tess"}, tom, traders, day) == "T3 has claimed it.");
    CHECK(why_not(command::HandOver{"R1", "lou"}, tess, traders, day) ==
          "The desk has no trader 'lou' who may quote.");
    CHECK_FALSE(why_not(command::HandOver{"R1", "tess"}, tess, traders, day).empty());
    CHECK(why_not(command::HandOver{"R1", "tom"}, tess, traders, day).empty());
    note(R"({"do": "hand over", "request": "R1", "login": "tess", "trader": "T3",
             "to": "tom", "to trader": "T4"})");
    CHECK(shown("R1").claim->login == "tom");
    CHECK(shown("R1").history.back().text == "Handed over to T4");
    note(R"({"do": "release", "request": "R1", "login": "tess", "trader": "T3"})");
    CHECK_FALSE(shown("R1").claim);
    CHECK_FALSE(shown("R2").claim);
}

TEST_CASE_FIXTURE(Fixture, "a note of another form changes nothing") {
    for (const char *text : {"", "no JSON", "[]", "{}", R"({"do": "claim"})", R"({"do": 5})",
                             R"({"do": "claim", "request": "R9", "login": "a", "trader": "b"})",
                             R"({"do": "claim", "request": ["R1"], "login": "a", "trader": "b"})",
                             R"({"do": "later", "request": "R1", "login": "a", "trader": "b"})"}) {
        day.apply(entry(Kind::note, 2000, text));
        CHECK_FALSE(shown("R1").claim);
        CHECK(shown("R1").history.empty());
    }
}

TEST_CASE_FIXTURE(Fixture, "a history says who of the firm acted, and nobody where the venue did") {
    quote_live(2, "q1", "R1");
    CHECK(shown("R1").history.back().trader == "T3");
    send(3, "35=Z|117=q1|298=5|");
    receive("35=AI|117=q1|297=17|");
    CHECK(shown("R1").history.back().text == "Withdrawn: 99.5");
    CHECK(shown("R1").history.back().trader == "T3");
    send(4, "35=AG|131=R1|658=10|");
    receive("35=AI|131=R1|297=11|");
    CHECK(shown("R1").history.back().trader == "T3");
    receive("35=AJ|131=R1|694=3|");
    CHECK(shown("R1").history.back().text == "Expired");
    CHECK(shown("R1").history.back().trader.empty());
}

TEST_CASE_FIXTURE(Fixture, "each end of a request is told in its own words") {
    struct Row {
        const char *type, *words, *state;
    };
    for (const Row &row :
         {Row{"1", "Done", "done"}, Row{"3", "Expired", "expired"},
          Row{"4", "Cover: another dealer won, and your quote was the next best", "cover"},
          Row{"5", "Done away: another dealer won", "away"},
          Row{"6", "The investor passed", "passed"}}) {
        CAPTURE(row.type);
        Fixture one;
        one.quote_live(2, "q1", "R1");
        one.receive(std::string("35=AJ|693=N1|131=R1|117=q1|133=99.5|694=") + row.type + "|");
        CHECK(one.shown("R1").told->text == row.words);
        CHECK_FALSE(one.shown("R1").told->is_refusal);
        CHECK(one.day.view("R1").at("state") == row.state);
        CHECK(one.day.view("R1").at("ended") == milliseconds_of(*moment_of("20260314-00:00:01")));
        CHECK(one.day.usage().open == 1);
    }
}

TEST_CASE_FIXTURE(Fixture, "a bid is the price of a request that sells, and a validity is kept") {
    send(2, "35=S|131=R2|117=q1|132=99|133=101|62=20260314-00:02:00.000|");
    CHECK(shown("R2").quotes[0].price == Price{99 * 256});
    send(3, "35=S|131=R1|117=q2|132=99|133=101|");
    CHECK(shown("R1").quotes[0].price == Price{101 * 256});
    receive("35=AI|131=R2|117=q1|297=0|");
    const nlohmann::json quote = day.view("R2").at("quotes").at(0);
    CHECK(quote.at("valid") == milliseconds_of(*moment_of("20260314-00:02:00.000")));
    CHECK(quote.at("state") == "live");
    CHECK(day.view("R1").at("quotes").at(0).at("valid").is_null());
    receive("35=AJ|693=N1|131=R2|117=q1|694=1|132=98.5|133=101|");
    CHECK(shown("R2").result == Price{98 * 256 + 128}); // as the venue has awarded it
    CHECK(day.view("R2").at("quotes").at(0).at("state") == "hit");
}

TEST_CASE_FIXTURE(Fixture, "a cancel of all tells what is live behind it, and of its own refusal") {
    quote_live(2, "q1", "R1");
    send(3, "35=Z|298=4|");
    quote_live(4, "q2", "R2"); // sent behind it
    receive("35=AI|117=q1|297=17|");
    CHECK(day.notice()->text == "Cancel all: 1 quote withdrawn, and others are live");
    send(5, "35=Z|298=4|");
    CHECK(shown("R2").awaits(Act::withdraw));
    day.take_changed();
    receive("35=3|45=5|371=50|373=5|");
    CHECK(day.notice()->text == "The cancel of all quotes was refused: the trader is not allowed "
                                "(Reject, 371=50, 373=5)");
    CHECK(day.notice()->is_refusal);
    CHECK(day.take_changed() == std::set<std::string>{"R2"});
    CHECK(shown("R2").pending.empty());
    CHECK(shown("R2").live()->id == "q2");
    send(6, "35=Z|298=4|");
    receive("35=AI|297=9|58=the venue is halted|");
    CHECK(day.notice()->text == "Cancel all: the venue is halted");
    CHECK(shown("R2").pending.empty());
}

TEST_CASE_FIXTURE(Fixture, "a withdrawal and a decline that the venue does not take are told so") {
    quote_live(2, "q1", "R1");
    send(3, "35=Z|298=5|117=q1|");
    receive("35=j|45=3|372=Z|380=4|58=the venue's clock is in doubt|");
    CHECK(shown("R1").told->text == "Withdrawal refused: the venue's clock is in doubt");
    CHECK(shown("R1").pending.empty());
    CHECK(shown("R1").live() != nullptr);
    send(4, "35=AG|131=R2|658=10|");
    receive("35=j|45=4|372=AG|380=4|58=not now|");
    CHECK(shown("R2").told->text == "Decline refused: not now");
    CHECK(shown("R2").told->trader == "T3");
    CHECK(shown("R2").pending.empty());
    CHECK_FALSE(shown("R2").is_declined);
}
