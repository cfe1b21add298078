// What the desk refuses before it sends: each limit on both sides of its edge, and what counts
// toward it.
#include <doctest/doctest.h>

#include "checks.h"
#include "trader_of.h"
#include "unit.h"

using namespace desk;
using desk_tests::entry;
using desk_tests::Folder;
using desk_tests::trader_of;
using Kind = Entry::Kind;

namespace {

constexpr const char *has_ended = "The request has ended.";
const Moment now_ = *moment_of("20260314-00:00:04.000");
const Moment deadline = *moment_of("20260314-00:05:00.000"); // of each request
const std::chrono::milliseconds moment_before{1};

Price points(int whole) {
    return Price{whole * 256};
}

// A dealer's day on which requests of two millions are shown.
struct Dealer {
    DealerDay day;
    Market market;
    Trader tess = trader_of("tess", "T1"), tom = trader_of("tom", "T4");
    int received = 0, sent = 0;

    Dealer() {
        market.bonds = {Bond{"A", "Alder", 256, {}}, Bond{"B", "Birch", 256, {}}};
        market.limits.exposure = 100'000'000;
        market.limits.quotes = 100;
        show("R1");
        show("R2");
    }
    void receive(const std::string &text) {
        const std::string number = std::to_string(++received);
        day.apply(entry(Kind::received, 1000 + received,
                        "34=" + number + "|1181=" + number + "|52=20260314-00:00:01.000|" + text));
    }
    void send(const std::string &name, const std::string &text) {
        day.apply(entry(Kind::sent, 1000 + received,
                        "34=" + std::to_string(++sent) + "|50=" + name + "|" + text));
    }
    void show(const std::string &id, const std::string &bond = "A", const std::string &side = "1") {
        receive("35=R|131=" + id + "|48=" + bond + "|54=" + side +
                "|38=2000000|126=20260314-00:05:00.000|448=INV1|");
    }
    // A price that is on its way to the venue.
    void quote(const std::string &name, const std::string &request, const std::string &id,
               const std::string &price) {
        send(name, "35=S|131=" + request + "|117=" + id + "|133=" + price + "|132=" + price + "|");
    }
    void live(const std::string &name, const std::string &request, const std::string &id,
              const std::string &price = "99") {
        quote(name, request, id, price);
        receive("35=AI|131=" + request + "|117=" + id + "|297=0|");
    }
    void refuse(const std::string &request, const std::string &id) {
        receive("35=AI|131=" + request + "|117=" + id + "|297=5|300=3|");
    }
    void withdraw(const std::string &name, const std::string &id) {
        send(name, "35=Z|117=" + id + "|298=5|");
        receive("35=AI|117=" + id + "|297=17|");
    }
    std::string why(const Trader &who, const std::string &request, const std::string &replaces = "",
                    Moment at = now_) const {
        return why_not(command::Quote{request, points(99), {}, replaces}, who, market, day, at);
    }
};

// An investor's day with one request of two millions that two dealers have answered.
struct Investor {
    InvestorDay day;
    Market market;
    Trader tess = trader_of("tess", "T8");
    int received = 0, sent = 0;

    Investor() {
        market.bonds = {Bond{"A", "Alder", 256, {}}};
        for (int dealer = 1; dealer <= 9; ++dealer) {
            market.dealers.push_back("DLR" + std::to_string(dealer));
        }
        market.limits.quantity = 5'000'000;
        market.limits.requests = 2;
        market.limits.open = 2;
        send("35=R|131=A1|48=A|54=1|38=2000000|126=20260314-00:05:00.000|448=DLR1|448=DLR2|");
        receive("35=AI|131=A1|297=0|");
        receive("35=S|131=A1|117=Q1|54=1|133=99.5|448=DLR1|62=20260314-00:00:10.000|");
        receive("35=S|131=A1|117=Q2|54=1|133=99.25|448=DLR2|");
    }
    void receive(const std::string &text) {
        const std::string number = std::to_string(++received);
        day.apply(entry(Kind::received, 1000 + received,
                        "34=" + number + "|1181=" + number + "|52=20260314-00:00:01.000|" + text));
    }
    void send(const std::string &text) {
        day.apply(entry(Kind::sent, 1000, "34=" + std::to_string(++sent) + "|50=T8|" + text));
    }
    command::Ask ask() const { return {"A", Side::buy, 5, std::chrono::seconds(60), {"DLR1"}, ""}; }
    std::string why(const command::Ask &one, Moment at = now_) const {
        return why_not(one, tess, market, day, at);
    }
    std::string why_hit(const std::string &quote, int in_256ths, Moment at = now_) const {
        return why_not(command::Hit{"A1", quote, Price{in_256ths}}, tess, day, at);
    }
};

} // namespace

TEST_CASE_FIXTURE(Dealer, "a quote is sent up to each limit, and not beyond it") {
    CHECK(why(tess, "R1", "", deadline - moment_before) == "");
    CHECK(why(tess, "R1", "", deadline) == "The deadline has come.");
    tess.quantity = 2'000'000;
    CHECK(why(tess, "R1") == "");
    tess.quantity = 1'999'999;
    CHECK(why(tess, "R1") == "The quantity is above the 1,999,999 that your desk allows you.");
    CHECK(why(tom, "R1") == "");
    live("T4", "R1", "q1");
    market.limits.exposure = 4'000'000;
    CHECK(why(tom, "R2") == "");
    market.limits.exposure = 3'999'999;
    CHECK(why(tom, "R2") ==
          "The exposure would be 4,000,000 of 3,999,999: withdraw another quote first.");
    market.limits.exposure = 4'000'000;
    tom.exposure = 4'000'000;
    CHECK(why(tom, "R2") == "");
    tom.exposure = 3'999'999;
    CHECK(why(tom, "R2") ==
          "Your own exposure would be 4,000,000 of the 3,999,999 that your desk allows you.");
    tom.exposure.reset();
    market.limits.quotes = 2;
    CHECK(why(tom, "R2") == "");
    market.limits.quotes = 1;
    CHECK(why(tom, "R2") == "Your firm's quotes of the day are used up.");
}

TEST_CASE_FIXTURE(Dealer, "a price is held against the grid and the band of its request's bond") {
    market.bonds[1].grid = 32;
    market.bonds[1].band = {points(90), points(95)};
    show("R3", "B");
    CHECK(why(tess, "R1") == "");
    CHECK(why(tess, "R3") == "The price is outside the bond's band of 90 to 95.");
    const auto at = [&](int in_256ths, const std::string &request) {
        return why_not(command::Quote{request, Price{in_256ths}, {}, ""}, tess, market, day, now_);
    };
    CHECK(at(94 * 256 + 4, "R3") == "The price is off the bond's grid of 1/32.");
    CHECK(at(94 * 256 + 8, "R3") == "");
    CHECK(at(Price::greatest, "R1") == "");
    CHECK(at(Price::greatest + 1, "R1") == "The price is off the bond's grid of 1/256.");
    CHECK(at(1, "R1") == "");
    CHECK(at(0, "R1") == "The price is off the bond's grid of 1/256.");
}

TEST_CASE_FIXTURE(Dealer,
                  "a trader's exposure counts its programs' quotes, and what is on its way") {
    tess.names = {"T1", "P1"};
    tess.exposure = 2'000'000;
    tom.exposure = 2'000'000;
    live("P1", "R1", "q1");
    CHECK(why(tess, "R1", "q1") == ""); // it replaces the program's
    CHECK(why(tess, "R2").starts_with("Your own exposure would be 4,000,000 of the 2,000,000"));
    CHECK(why(tom, "R2") == "");
    quote("T4", "R2", "q2", "99");
    show("R3");
    CHECK(why(tom, "R3").starts_with("Your own exposure would be 4,000,000 of the 2,000,000"));
    refuse("R2", "q2");
    CHECK(why(tom, "R3") == "");
    Trader other = trader_of("other", "T7");
    other.exposure = 1;
    CHECK(why(other, "R3").starts_with("Your own exposure would be 2,000,000 of the 1 that"));
    CHECK(exposure_of(tess, day) == 2'000'000);
    CHECK(exposure_of(tom, day) == 0);
    live("T1", "R3", "q3");
    CHECK(exposure_of(tess, day) == 4'000'000); // its own, and the program's
}

TEST_CASE_FIXTURE(Dealer, "who replaces a quote of a colleague takes over its exposure") {
    live("T1", "R1", "q1");
    live("T4", "R1", "q2", "98");
    CHECK(exposure_of(tess, day) == 0);
    CHECK(exposure_of(tom, day) == 2'000'000);
    CHECK(day.usage().exposure == 2'000'000);
    live("T4", "R1", "q3", "97");
    CHECK(exposure_of(tom, day) == 2'000'000);
    withdraw("T1", "q3");
    CHECK(exposure_of(tom, day) == 0);
    CHECK(exposure_of(tess, day) == 0);
    CHECK(day.usage().exposure == 0);
}

TEST_CASE_FIXTURE(Dealer, "one act of a request at a time, but for a withdrawal") {
    const std::string waits = "Wait: the quote of T1 is not answered yet.";
    const command::Withdraw withdraw{"R1"};
    const command::Decline decline{"R1"};
    CHECK(why_not(withdraw, day) == "There is no live quote to withdraw.");
    quote("T1", "R1", "q1", "99");
    CHECK(why(tom, "R1") == waits);
    CHECK(why_not(decline, day) == waits);
    CHECK(why_not(withdraw, day) == "There is no live quote to withdraw.");
    CHECK(why(tom, "R2") == "");
    receive("35=AI|131=R1|117=q1|297=0|");
    CHECK(why(tom, "R1") == "The live quote is another one than you were shown: look again.");
    CHECK(why(tom, "R1", "q0") == "The live quote is another one than you were shown: look again.");
    CHECK(why(tom, "R1", "q1") == "");
    quote("T4", "R1", "q2", "98");
    CHECK(why_not(withdraw, day) == "");
    send("T4", "35=Z|117=q1|298=5|");
    CHECK(why_not(withdraw, day) == "The withdrawal is sent already, and not answered yet.");
    send("T1", "35=AG|131=R2|658=10|");
    CHECK(why_not(command::Decline{"R2"}, day) == "Wait: the decline of T1 is not answered yet.");
    CHECK(why(tess, "R2") == "Wait: the decline of T1 is not answered yet.");
    receive("35=AI|131=R2|297=11|");
    CHECK(why(tess, "R2") == "You declined this request.");
    CHECK(why_not(command::Decline{"R2"}, day) == "It is declined already.");
}

TEST_CASE_FIXTURE(Dealer,
                  "of a request that has ended, and of one that nobody has, nothing is sent") {
    live("T1", "R1", "q1");
    receive("35=AJ|693=N1|131=R1|694=3|");
    const std::vector<Trader> traders{tess, tom};
    for (const std::string id : {"R1", "R9", ""}) {
        CAPTURE(id);
        CHECK(why(tess, id, "q1") == has_ended);
        CHECK(why_not(command::Withdraw{id}, day) == has_ended);
        CHECK(why_not(command::Decline{id}, day) == has_ended);
        CHECK(why_not(command::ClaimRequest{id}, tess, day) == has_ended);
        CHECK(why_not(command::ReleaseRequest{id}, day) == has_ended);
        CHECK(why_not(command::HandOver{id, "tom"}, tess, traders, day) == has_ended);
    }
}

TEST_CASE_FIXTURE(Dealer, "a program is held against its firm's last price of that bond and side") {
    const Folder folder;
    const References references(folder.file("references.json"));
    const auto asked = [&](const std::string &request, int whole) {
        return why_ask(command::Quote{request, points(whole), {}, ""}, references, day);
    };
    const std::string nothing =
        "There is nothing to compare the price with: the firm sets a reference first.";
    const auto far = [](const std::string &from) {
        return "The price is more than 1 from the firm's last one, " + from + ".";
    };
    show("R3", "B");
    live("T4", "R3", "q1", "50");
    CHECK(asked("R1", 50) == nothing); // another bond's price is no yardstick, live or not
    quote("T4", "R2", "q2", "60");
    refuse("R2", "q2");
    CHECK(asked("R1", 60) == nothing); // nor one that the venue has refused
    quote("T4", "R2", "q3", "60");
    day.apply(entry(Kind::undelivered, 2000, std::to_string(sent)));
    CHECK(asked("R1", 60) == nothing); // nor one that was never delivered
    live("T4", "R2", "q4", "70");
    withdraw("T4", "q4");
    CHECK(asked("R1", 71) == "");
    CHECK(asked("R1", 72) == far("70")); // all prices were withdrawn: the last of them counts
    live("T4", "R2", "q5", "80");
    live("T4", "R2", "q6", "82");
    CHECK(asked("R1", 83) == "");
    CHECK(asked("R1", 80) == far("82")); // the last one of a request, and none that it replaced
    CHECK(asked("R2", 84) == far("82")); // its own live quote is its last price
    show("R5");
    live("T1", "R5", "q7", "83");
    CHECK(asked("R1", 81) == far("83"));
    live("T4", "R2", "q8", "82"); // an older request's, and the last one that the firm has sent
    CHECK(asked("R1", 84) == far("82"));
    CHECK(asked("R1", 83) == "");
    receive("35=AJ|693=N1|131=R5|694=3|");
    receive("35=AJ|693=N2|131=R2|694=3|");
    CHECK(asked("R1", 83) == "");
    CHECK(asked("R1", 84) == far("82")); // one that stood to the end was no slip
    show("R4", "A", "2");
    CHECK(asked("R4", 10) == nothing); // the other side has no price, and nothing is live
}

TEST_CASE_FIXTURE(Investor, "a request is sent up to each limit, and not beyond it") {
    const auto with = [&](const auto &change, Moment at = now_) {
        command::Ask one = ask();
        change(one);
        return why(one, at);
    };
    const auto lasts = [&](int seconds, const char *at) {
        return with([&](command::Ask &one) { one.within = std::chrono::seconds(seconds); },
                    *moment_of(at));
    };
    const auto quantity = [&](Quantity of) {
        return with([&](command::Ask &one) { one.quantity = of; });
    };
    const auto dealers = [&](std::size_t count) {
        return with([&](command::Ask &one) {
            one.dealers.assign(market.dealers.begin(),
                               market.dealers.begin() + static_cast<std::ptrdiff_t>(count));
        });
    };
    const std::string beyond = "The quantity has to be from 1 to 5,000,000.";
    CHECK(quantity(0) == beyond);
    CHECK(quantity(1) == "");
    CHECK(quantity(5'000'000) == "");
    CHECK(quantity(5'000'001) == beyond);
    tess.quantity = 6'000'000; // the venue's limit holds all the same
    CHECK(quantity(5'000'001) == beyond);
    tess.quantity = 1'000;
    CHECK(quantity(1'000) == "");
    CHECK(quantity(1'001) == "The quantity has to be from 1 to 1,000.");
    tess.quantity = 999;
    CHECK(quantity(1'001) == "The quantity has to be from 1 to 999.");
    tess.quantity.reset();
    const std::string soon = "The deadline has to be 5 seconds away at least.";
    const std::string late = "The deadline is after midnight in UTC, when the venue's day ends.";
    CHECK(lasts(4, "20260314-12:00:00") == soon);
    CHECK(lasts(5, "20260314-12:00:00") == "");
    CHECK(lasts(59, "20260314-23:59:00") == "");
    CHECK(lasts(60, "20260314-23:59:00") == late);
    CHECK(lasts(61, "20260314-23:59:00") == late);
    CHECK(lasts(86'399, "20260314-00:00:00") == "");
    CHECK(lasts(86'401, "20260314-00:00:00") == late);
    const std::string choose = "Choose 1 to 8 dealers.";
    CHECK(dealers(0) == choose);
    CHECK(dealers(1) == "");
    CHECK(dealers(8) == "");
    CHECK(dealers(9) == choose);
    CHECK(with([](command::Ask &one) {
              one.dealers = {"DLR1", "DLR2", "DLR1"};
          }) == "A dealer is named twice.");
    CHECK(with([](command::Ask &one) {
              one.dealers = {"DLR1", "dlr2"};
          }) == "The venue has no dealer 'dlr2'.");
    market.limits.open = 1;
    CHECK(why(ask()) == "As many requests are open as your firm may have: pass one first.");
    market.limits.open = 2;
    market.limits.requests = 1;
    CHECK(why(ask()) == "Your firm's requests of the day are used up.");
}

TEST_CASE_FIXTURE(Investor,
                  "each line of a list is judged, and all of them by what is left of the day") {
    command::AskList list;
    list.within = std::chrono::seconds(60);
    list.dealers = {"DLR1"};
    const auto line = [](Quantity quantity) {
        ListLine one;
        one.bond = "A";
        one.quantity = quantity;
        return one;
    };
    const auto why_list = [&](const std::vector<Quantity> &quantities) {
        list.lines.clear();
        for (const Quantity quantity : quantities) {
            list.lines.push_back(line(quantity));
        }
        return why_not(list, tess, market, day, now_);
    };
    market.limits.open = 1; // one is open: the lines wait for room
    CHECK(why_list({5}) == "");
    CHECK(why_list({5, 5}) == "Your firm may ask 1 requests more today.");
    market.limits.requests = 3;
    CHECK(why_list({5, 5}) == "");
    CHECK(why_list({5, 0}) == "Line 2: The quantity has to be from 1 to 5,000,000.");
    list.within = std::chrono::seconds(4);
    CHECK(why_list({5}) == "Line 1: The deadline has to be 5 seconds away at least.");
    list.within = std::chrono::seconds(60);
    list.dealers = {"DLR0"};
    CHECK(why_list({5}) == "Line 1: The venue has no dealer 'DLR0'.");
    market.limits.requests = 0;
    list.dealers = {"DLR1"};
    CHECK(why_list({5}) == "Your firm may ask 0 requests more today.");
}

TEST_CASE_FIXTURE(Investor, "a hit is of the quote and the price that were shown, while it holds") {
    const Moment over = *moment_of("20260314-00:00:10.000");
    CHECK(why_hit("Q1", 25'472) == "");
    CHECK(why_hit("Q2", 25'408) == "");
    for (const int other : {25'471, 25'473, 25'408}) {
        CHECK(why_hit("Q1", other) == "Another price was shown to you: look again.");
    }
    CHECK(why_hit("Q3", 25'472) == "This quote is gone.");
    CHECK(why_hit("", 25'472) == "This quote is gone.");
    CHECK(why_hit("Q1", 25'472, over - moment_before) == "");
    CHECK(why_hit("Q1", 25'472, over) == "This quote's validity is over.");
    CHECK(why_hit("Q2", 25'408, over) == ""); // it holds to the request's end
    tess.quantity = 2'000'000;
    CHECK(why_hit("Q1", 25'472) == "");
    tess.quantity = 1'999'999;
    CHECK(why_hit("Q1", 25'472) ==
          "The quantity is above the 1,999,999 that your desk allows you.");
    tess.quantity.reset();
    receive("35=AI|131=A1|117=Q1|297=17|");
    CHECK(why_hit("Q1", 25'472) == "This quote is gone.");
    CHECK(why_hit("Q2", 25'408) == "");
    send("35=AJ|693=P1|131=A1|694=6|");
    CHECK(why_hit("Q2", 25'408) == "Wait: the pass of T8 is not answered yet.");
    CHECK(why_not(command::Pass{"A1"}, day) == "Wait: the pass of T8 is not answered yet.");
    receive("35=AI|693=P1|131=A1|297=11|");
    CHECK(why_hit("Q2", 25'408) == has_ended);
    CHECK(why_not(command::Pass{"A1"}, day) == has_ended);
    CHECK(why_not(command::Pass{"A9"}, day) == has_ended);
    CHECK(why_not(command::Hit{"A9", "Q2", Price{25'408}}, tess, day, now_) == has_ended);
}
