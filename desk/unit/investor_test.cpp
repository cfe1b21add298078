// The investor's day: how each message of the venue changes what the firm's traders see.
#include <doctest/doctest.h>

#include "checks.h"
#include "investor_day.h"
#include "unit.h"

#include <nlohmann/json.hpp>

using namespace desk;
using desk_tests::entry;
using Kind = Entry::Kind;
using State = InvestorRequest::State;

namespace {

constexpr const char *request =
    "35=R|34=2|50=T8|52=20260314-00:00:01.000|131=A1|146=1|48=BONDA0000001|54=1|38=2000000|"
    "126=20260314-00:05:00.000|453=3|448=DLR1|448=DLR2|448=DLR3|";
constexpr const char *accepted = "35=AI|34=2|52=20260314-00:00:01.100|1181=1|131=A1|297=0|";

std::string quote(int number, const std::string &id, const std::string &dealer,
                  const std::string &price, const std::string &more = "") {
    return "35=S|34=" + std::to_string(number + 1) +
           "|52=20260314-00:00:02.000|1181=" + std::to_string(number) + "|131=A1|117=" + id +
           "|54=1|133=" + price + "|448=" + dealer + "|" + more;
}

// The day of one request that three dealers are asked for, and that was accepted.
struct Fixture {
    InvestorDay day;
    Fixture() {
        day.apply(entry(Kind::sent, 1000, request));
        day.apply(entry(Kind::received, 1100, accepted));
    }
    void receive(int millisecond, const std::string &text) {
        day.apply(entry(Kind::received, millisecond, text));
    }
    void send(int millisecond, const std::string &text) {
        day.apply(entry(Kind::sent, millisecond, text));
    }
    const InvestorRequest &asked() const { return *day.request("A1"); }
};

} // namespace

TEST_CASE("a request is shown as sent until the venue has answered it") {
    InvestorDay day;
    day.apply(entry(Kind::sent, 1000, request));
    CHECK(day.request("A1")->state == State::sent);
    CHECK(day.request("A1")->pending.size() == 1);
    CHECK(day.request("A1")->dealers.size() == 3);
    CHECK(day.usage().open == 1);
    CHECK(day.usage().accepted == 0);
    CHECK(day.take_changed() == std::set<std::string>{"A1"});
    CHECK(day.take_changed().empty());
    day.apply(entry(Kind::received, 1100, accepted));
    CHECK(day.request("A1")->state == State::open);
    CHECK(day.request("A1")->pending.empty());
    CHECK(day.usage().accepted == 1);
}

TEST_CASE_FIXTURE(Fixture, "quotes come, are replaced and go") {
    receive(2000, quote(2, "Q1", "DLR1", "99.5", "62=20260314-00:04:00.000|"));
    receive(2001, quote(3, "Q2", "DLR2", "99.4375"));
    CHECK(asked().quotes.size() == 2);
    CHECK(asked().quotes[0].price == Price{99 * 256 + 128});
    CHECK(asked().quotes[0].valid_until == moment_of("20260314-00:04:00.000"));
    CHECK(asked().dealers[0].answer == AskedDealer::Answer::quoted);
    receive(2002, "35=AI|34=5|52=20260314-00:00:03.000|1181=4|131=A1|117=Q1|297=17|");
    CHECK(asked().quotes[0].state == ShownQuote::State::gone);
    CHECK(asked().dealers[0].answer == AskedDealer::Answer::took_back);
    receive(2003, "35=AI|34=6|52=20260314-00:00:03.000|1181=5|131=A1|297=11|448=DLR3|");
    CHECK(asked().dealers[2].answer == AskedDealer::Answer::declined);
    const auto answered = [](const char *name, const char *answer) {
        return nlohmann::json{{"name", name}, {"answer", answer}};
    };
    CHECK(day.view("A1").at("dealers") == nlohmann::json{answered("DLR1", "took back"),
                                                         answered("DLR2", "quoted"),
                                                         answered("DLR3", "declined")});
    CHECK(day.alarm().empty());
}

TEST_CASE_FIXTURE(Fixture, "a hit is done when the venue says so, with the cover of that moment") {
    receive(2000, quote(2, "Q1", "DLR1", "99.5"));
    receive(2001, quote(3, "Q2", "DLR2", "99.4375"));
    receive(2002, quote(4, "Q3", "DLR3", "99.4375"));
    send(3000, "35=AJ|34=3|50=T8|693=H1|117=Q2|694=1|");
    CHECK(asked().state == State::open);
    CHECK(asked().awaits(Act::hit));
    receive(3100, "35=AI|34=6|52=20260314-00:00:03.100|1181=5|693=H1|131=A1|117=Q2|297=0|1003="
                  "20260314-INV1-DLR2-1|");
    CHECK(asked().state == State::done);
    CHECK(asked().pending.empty());
    CHECK(asked().award->dealer == "DLR2");
    CHECK(asked().award->trader == "T8");
    CHECK(asked().cover->dealer == "DLR3");
    CHECK(asked().trade == "20260314-INV1-DLR2-1");
    CHECK(day.usage().open == 0);
}

TEST_CASE_FIXTURE(Fixture, "where it sells, the cover is the highest of the other bids") {
    InvestorDay sells;
    std::string text = request;
    text.replace(text.find("54=1"), 4, "54=2");
    sells.apply(entry(Kind::sent, 1000, text));
    sells.apply(entry(Kind::received, 1100, accepted));
    int number = 2;
    for (const auto &[dealer, price] :
         {std::pair("DLR1", "99"), {"DLR2", "98"}, {"DLR3", "98.5"}}) {
        std::string bid = quote(number, "Q" + std::to_string(number), dealer, price);
        bid.replace(bid.find("133="), 4, "132=");
        sells.apply(entry(Kind::received, 2000, bid));
        ++number;
    }
    sells.apply(entry(Kind::sent, 3000, "35=AJ|34=3|50=T8|693=H1|117=Q2|694=1|"));
    sells.apply(
        entry(Kind::received, 3100, "35=AI|34=6|52=20260314-00:00:03.100|1181=5|693=H1|297=0|"));
    CHECK(sells.request("A1")->award->price == Price{99 * 256});
    CHECK(sells.request("A1")->cover->dealer == "DLR3");
}

TEST_CASE_FIXTURE(Fixture, "of equal prices the cover is the earlier one, and none that has gone") {
    receive(2000, quote(2, "Q1", "DLR3", "99"));
    receive(2001, quote(3, "Q2", "DLR2", "99.5", "62=20260314-00:00:02.500|"));
    receive(2002, quote(4, "Q3", "DLR1", "99.25"));
    receive(2003, "35=AI|34=6|52=20260314-00:00:02.003|1181=5|131=A1|117=Q1|297=17|");
    receive(2004, quote(6, "Q4", "DLR3", "99.5"));
    send(3000, "35=AJ|34=3|50=T9|693=H1|117=Q3|694=1|");
    receive(3100, "35=AI|34=8|52=20260314-00:00:03.100|1181=7|693=H1|131=A1|117=Q3|297=0|");
    CHECK(asked().award->dealer == "DLR1");
    CHECK(asked().award->trader == "T9");
    CHECK(asked().cover->dealer == "DLR2"); // whether its validity is over or not
    CHECK(asked().cover->price == Price{99 * 256 + 128});
    CHECK(asked().told->text == "Done with DLR1 at 99.25");
    CHECK(asked().told->trader == "T9");
    const nlohmann::json view = day.view("A1");
    CHECK(view.at("cover") == nlohmann::json{{"dealer", "DLR2"}, {"price", 25'472}});
    CHECK(view.at("state") == "done");
    CHECK(view.at("trader") == "T8");
    CHECK(view.at("quotes").at(0).at("state") == "gone");
    CHECK(view.at("quotes").at(1).at("state") == "live");
    CHECK(view.at("quotes").at(2).at("state") == "hit");
}

TEST_CASE_FIXTURE(Fixture, "a hit with nobody else's quote has no cover") {
    receive(2000, quote(2, "Q1", "DLR1", "99.5"));
    send(3000, "35=AJ|34=3|50=T8|693=H1|117=Q1|694=1|");
    receive(3100, "35=AI|34=4|52=20260314-00:00:03.100|1181=3|693=H1|131=A1|117=Q1|297=0|");
    CHECK_FALSE(asked().cover);
    CHECK_FALSE(day.view("A1").contains("cover"));
}

TEST_CASE_FIXTURE(Fixture, "the venue's clock is ahead by what its last new message has") {
    CHECK(day.clock_offset() == std::chrono::milliseconds(0));
    receive(2000, "35=AI|34=3|52=20260314-00:00:03.500|1181=2|131=A1|297=11|448=DLR3|");
    CHECK(day.clock_offset() == std::chrono::milliseconds(1500));
    receive(9000, "35=AI|34=4|43=Y|52=20260314-00:00:03.600|1181=3|131=A1|297=11|448=DLR2|");
    CHECK(day.clock_offset() == std::chrono::milliseconds(1500)); // it was sent before
    receive(9500, "35=AI|34=5|52=20260314-00:00:09.000|60=20260314-00:00:08.000|1181=4|131=A1|"
                  "297=7|");
    CHECK(day.clock_offset() == std::chrono::milliseconds(-500));
    CHECK(asked().ended == moment_of("20260314-00:00:08.000")); // when the venue has decided it
    CHECK(asked().state == State::expired);
    CHECK(asked().told->text == "Expired");
    CHECK(day.usage().open == 0);
}

TEST_CASE_FIXTURE(Fixture, "a refused hit changes nothing, and its rule is told in words") {
    receive(2000, quote(2, "Q1", "DLR1", "99.5"));
    send(3000, "35=AJ|34=3|50=T8|693=H1|117=Q1|694=1|");
    receive(3100,
            "35=AI|34=4|52=20260314-00:00:03.100|1181=3|693=H1|117=Q1|297=5|300=4|58=Withdrawn|");
    CHECK(asked().state == State::open);
    CHECK(asked().pending.empty());
    CHECK(asked().told->is_refusal);
    CHECK(asked().told->text == "Hit refused: the dealer withdrew the quote first");
    CHECK(asked().quotes[0].state == ShownQuote::State::live);
}

TEST_CASE_FIXTURE(Fixture, "a hit that was never delivered is told so, and may be sent again") {
    receive(2000, quote(2, "Q1", "DLR1", "99.5"));
    send(3000, "35=AJ|34=3|50=T8|693=H1|117=Q1|694=1|");
    day.apply(entry(Kind::undelivered, 9000, "3"));
    CHECK(asked().pending.empty());
    CHECK(asked().state == State::open);
    CHECK(asked().told->text.rfind("Hit never delivered", 0) == 0);
    send(9100, "35=AJ|34=4|50=T8|693=H2|117=Q1|694=1|");
    day.apply(entry(Kind::undelivered, 9200, "3")); // the venue asked for the first once more
    CHECK(asked().pending.size() == 1);
}

TEST_CASE("a request that was never delivered is over, and open no more") {
    InvestorDay day;
    day.apply(entry(Kind::sent, 1000, request));
    day.apply(entry(Kind::undelivered, 9000, "2"));
    CHECK(day.request("A1")->state == State::undelivered);
    CHECK(day.usage().open == 0);
}

TEST_CASE("a refused request says why: in the venue's words, or by what its code can mean") {
    for (const auto &[more, words] :
         {std::pair("658=1|", "the venue does not have this bond"),
          std::pair("658=3|58=too many are open|", "too many are open"),
          std::pair("658=3|",
                    "a limit of your firm: the quantity, the day's requests, or how many are open"),
          std::pair("658=99|", "the list of dealers is at fault, or the request's name was used "
                               "before")}) {
        InvestorDay day;
        day.apply(entry(Kind::sent, 1000, request));
        day.apply(entry(Kind::received, 1100,
                        std::string("35=AG|34=2|52=20260314-00:00:01.100|1181=1|131=A1|") + more));
        CHECK(day.request("A1")->state == State::refused);
        CHECK(day.request("A1")->told->text == "Request refused: " + std::string(words));
        CHECK(day.usage().open == 0);
    }
}

TEST_CASE_FIXTURE(Fixture, "a pass and an expiry end a request once") {
    send(3000, "35=AJ|34=3|50=T8|693=P1|131=A1|694=6|");
    CHECK(asked().awaits(Act::pass));
    receive(3100, "35=AI|34=3|52=20260314-00:00:03.100|1181=2|693=P1|131=A1|297=11|");
    CHECK(asked().state == State::passed);
    receive(3200, "35=AI|34=4|52=20260314-00:00:03.200|1181=3|131=A1|297=7|");
    CHECK(asked().state == State::passed);
    CHECK(day.usage().open == 0);
}

TEST_CASE_FIXTURE(Fixture, "what comes again counts once, and what is missing is an alarm") {
    receive(2000, quote(2, "Q1", "DLR1", "99.5"));
    receive(2001, quote(2, "Q1", "DLR1", "99.5"));
    CHECK(asked().quotes.size() == 1);
    CHECK(day.alarm().empty());
    receive(2002, quote(4, "Q2", "DLR2", "99.25"));
    CHECK(day.alarm().find("ApplSeqNum 3 to 3") != std::string::npos);
}

TEST_CASE("a request that the venue does not take has ended, in the venue's words") {
    InvestorDay day;
    day.apply(entry(Kind::sent, 1000, request));
    day.apply(entry(Kind::received, 1100,
                    "35=j|34=2|52=20260314-00:00:01.100|45=2|372=R|379=A1|380=0|"
                    "58=the day's bytes of your firm are used up|"));
    CHECK(day.request("A1")->state == State::refused);
    CHECK(day.request("A1")->told->text ==
          "Request refused: the day's bytes of your firm are used up");
    CHECK(day.request("A1")->pending.empty());
    CHECK(day.usage().open == 0);
}

TEST_CASE_FIXTURE(Fixture,
                  "a hit that the venue does not take has ended, and the request has not") {
    receive(2000, quote(2, "Q1", "DLR1", "99.5"));
    send(2100, "35=AJ|34=3|50=T8|52=20260314-00:00:02.100|693=H1|117=Q1|694=1|");
    receive(2200, "35=j|34=4|52=20260314-00:00:02.200|45=3|372=AJ|380=4|");
    CHECK(asked().state == State::open);
    CHECK(asked().pending.empty());
    CHECK(asked().told->text ==
          "Hit refused: the venue does not take it now (BusinessMessageReject)");
}

TEST_CASE_FIXTURE(Fixture, "a replacement is one line of the history") {
    receive(2000, quote(2, "Q1", "DLR1", "99.5", "60=20260314-00:00:02.000|"));
    receive(3000, "35=AI|34=4|52=20260314-00:00:03.000|60=20260314-00:00:03.000|1181=3|131=A1|117="
                  "Q1|297=17|");
    receive(3001, quote(4, "Q2", "DLR1", "99.25", "60=20260314-00:00:03.000|"));
    CHECK(asked().history.back().text == "DLR1 replaces 99.5 by 99.25");
    receive(4000, "35=AI|34=6|52=20260314-00:00:04.000|60=20260314-00:00:04.000|1181=5|131=A1|117="
                  "Q2|297=17|");
    CHECK(asked().history.back().text == "DLR1 withdraws 99.25");
    receive(5000, quote(6, "Q3", "DLR1", "99", "60=20260314-00:00:05.000|"));
    CHECK(asked().history.back().text == "DLR1 quotes 99");
}

TEST_CASE_FIXTURE(Fixture, "a Reject ends what it answers, in words") {
    send(3000, "35=AJ|34=3|50=T9|693=P1|131=A1|694=6|");
    receive(3100, "35=3|34=3|52=20260314-00:00:03.100|1181=2|45=3|371=50|373=5|");
    CHECK(asked().pending.empty());
    CHECK(asked().told->text == "Pass refused: the trader is not allowed (Reject, 371=50, 373=5)");
}

TEST_CASE_FIXTURE(Fixture, "the desk helps before it sends") {
    receive(2000, quote(2, "Q1", "DLR1", "99.5", "62=20260314-00:00:10.000|"));
    const Moment at = *moment_of("20260314-00:00:04.000");
    const Trader trader{"tess", "", "T8", true, {}, {}};
    Trader small = trader;
    small.quantity = 1'000'000;
    Market market{{Bond{"BONDA0000001", "Alder", 256}}, {"DLR1", "DLR2"}, {}};
    market.limits.quantity = 5'000'000;
    market.limits.requests = 2;
    market.limits.open = 2;
    const command::Hit hit{"A1", "Q1", Price{99 * 256 + 128}};
    CHECK(why_not(hit, trader, day, at).empty());
    CHECK_FALSE(why_not({"A1", "Q1", Price{99 * 256}}, trader, day, at).empty());
    CHECK_FALSE(why_not({"A1", "Q2", hit.price}, trader, day, at).empty());
    CHECK_FALSE(why_not({"A2", "Q1", hit.price}, trader, day, at).empty());
    CHECK_FALSE(why_not(hit, trader, day, *moment_of("20260314-00:00:10.000")).empty());
    CHECK_FALSE(why_not(hit, small, day, at).empty());

    const command::Ask ask{
        "BONDA0000001", Side::buy, 1'000'000, std::chrono::seconds(60), {"DLR1"}};
    CHECK(why_not(ask, trader, market, day, at).empty());
    const auto with = [&](auto change) {
        command::Ask other = ask;
        change(other);
        return why_not(other, trader, market, day, at);
    };
    CHECK(with([](auto &one) { one.bond = "X"; }) == "Choose a bond.");
    CHECK(with([](auto &one) { one.quantity = 5'000'001; }) ==
          "The quantity has to be from 1 to 5,000,000.");
    CHECK_FALSE(with([](auto &one) { one.quantity = 0; }).empty());
    CHECK_FALSE(with([](auto &one) { one.within = std::chrono::seconds(1); }).empty());
    for (const auto within : {std::chrono::hours(24), std::chrono::hours(25)}) {
        CHECK(with([&](auto &one) { one.within = within; }) ==
              "The deadline is after midnight in UTC, when the venue's day ends.");
    }
    CHECK_FALSE(with([](auto &one) { one.dealers = {}; }).empty());
    CHECK_FALSE(with([](auto &one) { one.dealers = {"DLR9"}; }).empty());
    CHECK_FALSE(with([](auto &one) { one.dealers = {"DLR1", "DLR1"}; }).empty());
    market.limits.open = 1;
    CHECK_FALSE(why_not(ask, trader, market, day, at).empty());
    send(3000, "35=AJ|34=3|50=T8|693=H1|117=Q1|694=1|");
    CHECK(why_not(hit, trader, day, at) == "Wait: the hit of T8 is not answered yet.");
}
