// Lists of requests, as the journal has them.
#include <doctest/doctest.h>

#include "checks.h"
#include "investor_day.h"
#include "lists.h"

#include <nlohmann/json.hpp>

using namespace desk;
using nlohmann::json;
using State = ListLine::State;

namespace {

const Moment at{std::chrono::milliseconds(1000)};

AskedList two_lines() {
    AskedList list;
    list.id = "L1-2";
    list.name = "Monday";
    list.within = std::chrono::seconds(60);
    list.dealers = {"DLR1"};
    list.lines = {{"A", Side::buy, 5, State::waiting, ""},
                  {"B", Side::sell, 7, State::waiting, ""}};
    return list;
}

json note(json text) {
    text["login"] = "tess";
    text["trader"] = "T8";
    return text;
}

} // namespace

TEST_CASE("a list is read back as it was noted") {
    Lists lists;
    lists.apply(note(note_of(two_lines())), at);
    CHECK(lists.take_changed() == std::set<std::string>{"L1-2"});
    CHECK(lists.take_changed().empty());
    REQUIRE(lists.named("L1-2"));
    const AskedList &list = *lists.named("L1-2");
    CHECK(list.login == "tess");
    CHECK(list.trader == "T8");
    CHECK(list.made == at);
    CHECK(list.within == std::chrono::seconds(60));
    REQUIRE(list.lines.size() == 2);
    CHECK(list.lines[1].bond == "B");
    CHECK(list.lines[1].side == Side::sell);
    CHECK(list.lines[1].quantity == 7);
}

TEST_CASE("a day has so many lists, whether lines of them wait or not") {
    InvestorDay day;
    Market market;
    market.limits.requests = 1000;
    const Trader trader{"tess", "", "T8", true, {}, {}};
    const auto why = [&] { return why_not(command::AskList{}, trader, market, day, at); };
    for (int count = 0; count < 256; ++count) {
        CHECK(why().empty());
        AskedList list = two_lines();
        list.id = "L" + std::to_string(count);
        day.lists().apply(note(note_of(list)), at);
    }
    CHECK(why() == "The desk takes 256 lists a day.");
}

TEST_CASE("lines are asked in order, and known by their requests") {
    Lists lists;
    lists.apply(note(note_of(two_lines())), at);
    REQUIRE(lists.next({}));
    CHECK(lists.next({})->line == 0);
    CHECK(lists.next({"L1-2-0"})->line == 1);
    CHECK_FALSE(lists.next({"L1-2-0", "L1-2-1"}));
    lists.sent("L1-2-0");
    CHECK(lists.next({})->line == 1);
    CHECK(lists.place_of("L1-2-1")->line == 1);
    for (const char *other : {"", "-", "L1-2", "L1-2-", "L1-2-2", "L1-2-1x", "L1-2--1", "A1-3"}) {
        CAPTURE(other);
        CHECK_FALSE(lists.place_of(other));
    }
    CHECK(view_of(*lists.named("L1-2"))["lines"][0]["request"] == "L1-2-0");
    CHECK(view_of(*lists.named("L1-2"))["lines"][1]["request"] == "");
}

TEST_CASE("a stop ends what waits, and a refusal its line") {
    Lists lists;
    lists.apply(note(note_of(two_lines())), at);
    lists.apply(note({{"do", "refuse line"}, {"list", "L1-2"}, {"line", 0}, {"why", "no"}}), at);
    lists.apply(note({{"do", "stop list"}, {"list", "L1-2"}, {"why", "enough"}}), at);
    const AskedList &list = *lists.named("L1-2");
    CHECK(list.lines[0].state == State::refused);
    CHECK(list.lines[0].why == "no");
    CHECK(list.lines[1].state == State::stopped);
    CHECK(list.lines[1].why == "enough");
    CHECK_FALSE(lists.next({}));
    lists.apply(note({{"do", "stop list"}, {"list", "L9"}, {"why", "x"}}), at);
    CHECK(lists.all().size() == 1);
}

// Of a later version of the desk, or of a journal that somebody has written into: the desk starts.
TEST_CASE("what a journal says of a line that its list has not") {
    InvestorDay day;
    const auto apply = [&day](json text) {
        day.apply({Entry::Kind::note, at, note(std::move(text)).dump()});
    };
    const auto refuse = [&](const std::string &list, const json &line) {
        apply({{"do", "refuse line"}, {"list", list}, {"line", line}, {"why", "no"}});
    };
    AskedList empty = two_lines();
    empty.id = "L9";
    empty.lines.clear();
    apply(note_of(empty));
    apply(note_of(two_lines()));
    for (const json &line : {json(0), json(-1), json("x"), json()}) {
        refuse("L9", line);
    }
    for (const json &line : {json(2), json(-1), json("x"), json()}) {
        refuse("L1-2", line);
    }
    REQUIRE(day.lists().named("L9"));
    CHECK(day.lists().named("L9")->lines.empty());
    CHECK(view_of(*day.lists().named("L9"))["lines"] == json::array());
    for (const ListLine &line : day.lists().named("L1-2")->lines) {
        CHECK(line.state == State::waiting);
    }
    CHECK(day.lists().next({})->list->id == "L1-2");
}

TEST_CASE("a page is told all of a list, and of each line what it asks and why it was not asked") {
    Lists lists;
    lists.apply(note(note_of(two_lines())), at);
    lists.apply(note({{"do", "refuse line"}, {"list", "L1-2"}, {"line", 1}, {"why", "no"}}), at);
    const auto line = [](const char *bond, const char *side, int quantity, const char *state,
                         const char *why) {
        return json{{"bond", bond},   {"side", side},  {"quantity", quantity},
                    {"state", state}, {"request", ""}, {"why", why}};
    };
    json told{
        {"id", "L1-2"},
        {"name", "Monday"},
        {"trader", "T8"},
        {"made", 1000},
        {"seconds", 60},
        {"dealers", {"DLR1"}},
        {"lines", {line("A", "buy", 5, "waiting", ""), line("B", "sell", 7, "refused", "no")}}};
    CHECK(view_of(lists.all().at(0)) == told);
    CHECK(lists.next({})->line == 0);
    lists.sent("L1-2-0");
    lists.apply(note({{"do", "stop list"}, {"list", "L1-2"}, {"why", "enough"}}), at);
    told["lines"][0]["state"] = "sent"; // what was asked or refused is not stopped
    told["lines"][0]["request"] = "L1-2-0";
    CHECK(view_of(lists.all().at(0)) == told);
}

TEST_CASE("the list that came first is asked first") {
    Lists lists;
    for (const char *id : {"L1-2", "L1-10"}) {
        AskedList list = two_lines();
        list.id = id;
        lists.apply(note(note_of(list)), at);
    }
    CHECK(lists.next({})->list->id == "L1-2");
    CHECK(lists.next({"L1-2-0", "L1-2-1"})->list->id == "L1-10");
    CHECK(lists.place_of("L1-10-1")->list->id == "L1-10");
    CHECK(lists.place_of("L1-10-1")->line == 1);
    CHECK_FALSE(lists.place_of("L1-1-0"));
    lists.take_changed();
    lists.sent("L1-10-0");
    lists.sent("A1-1");
    CHECK(lists.take_changed() == std::set<std::string>{"L1-10"});
}
