// What traders have the desk do, from a page's command to the message at the venue, and back.
#include <doctest/doctest.h>

#include "house.h"

#include <cstdlib>
#include <fstream>

#include <nlohmann/json.hpp>

using namespace desk;
using namespace desk_tests;
using nlohmann::json;

namespace {

constexpr const char *not_connected = "Not connected to the venue: nothing was sent.";

json quote_of(const std::string &request, int price, const std::string &replaces = "",
              int seconds = 0) {
    return {{"do", "quote"},
            {"request", request},
            {"price", price},
            {"seconds", seconds},
            {"replaces", replaces}};
}

json of_request(const std::string &act, const std::string &request) {
    return {{"do", act}, {"request", request}};
}

json ask_of(const std::string &bond, int quantity, int seconds = 60) {
    return {{"do", "ask"},          {"bond", bond},       {"side", "sell"},
            {"quantity", quantity}, {"seconds", seconds}, {"dealers", {"DLR2", "DLR1"}}};
}

json line_of(const std::string &bond, int quantity) {
    return {{"bond", bond}, {"side", "buy"}, {"quantity", quantity}};
}

json list_of(const std::string &name, const std::vector<json> &lines) {
    return {{"do", "ask list"},
            {"name", name},
            {"seconds", 60},
            {"dealers", {"DLR1"}},
            {"lines", lines}};
}

// The message of a command that the desk sends.
Message sent(House &house, const std::string &login, const json &command) {
    CHECK(house.act(login, command) == "");
    return house.venue.hear();
}

// The id of a quote that is live from now on.
std::string live(House &house, const std::string &login, const std::string &request, int price) {
    const std::string id = sent(house, login, quote_of(request, price)).get(tag::quote_id);
    house.venue.say("AI", "131=" + request + "|117=" + id + "|297=0|");
    house.until([&] {
        const json quotes = house.request(request).at("quotes");
        return !quotes.empty() && quotes.back().at("state") == "live";
    });
    return id;
}

// Whether it is so far from a moment of the command, which was given at `begun` or later.
bool is_from(std::optional<Moment> moment, Moment begun, std::chrono::seconds within) {
    return moment && *moment >= begun + within && *moment <= now() + within;
}

void put(const std::string &path, const std::string &text) {
    std::ofstream(path) << text;
}

} // namespace

// Nothing leaves as long as nobody runs the desk: what waits is as much as at a disk that stalls.
TEST_CASE("a cancel of all has room where nothing else has") {
    House house(Role::dealer);
    house.connect();
    const Trader &tess = house.config.traders[0], &tom = house.config.traders[1];
    std::vector<std::string> told;
    const auto act = [&](const Trader &trader, const Command &command) {
        const std::size_t before = told.size();
        house.own->act(trader, command, [&](const std::string &why) { told.push_back(why); });
        return told.size() > before ? told.back() : "waits";
    };
    const command::Decline decline{"R1"};
    const command::CancelAll cancel;
    CHECK(act(tess, cancel) == "waits"); // the sender has it
    for (int count = 0; count < 1024; ++count) {
        REQUIRE(act(tom, decline) == "waits");
    }
    const std::string too_many = "Too many wait to be sent: nothing was sent.";
    CHECK(act(tom, decline) == too_many);
    CHECK(act(tess, cancel) == "waits");
    CHECK(act(tess, cancel) == "Your cancel of all waits to be sent already.");
    CHECK(act(tom, cancel) == "waits");
    CHECK(act(tess, cancel) == "Your cancel of all waits to be sent already.");
    CHECK(act(tess, decline) == too_many);
    house.until([&] { return told.size() == 1024 + 3 + 4; });
    for (const char *name : {"T1", "T1", "T4"}) {
        const Message sent = house.venue.hear();
        CHECK(sent.type() == "Z");
        CHECK(sent.get(tag::cancel_type) == "4");
        CHECK(sent.get(tag::sender_sub_id) == name);
    }
}

TEST_CASE("a dealer's traders: from the logon to each message, and what the page is told") {
    House house(Role::dealer);
    const Page page = house.open("tess");
    CHECK(house.act(page, quote_of("R1", 25'472)) == not_connected);
    CHECK(page.last("hello").at("session").at("on") == false);
    house.connect();
    CHECK(page.last("session").at("on") == true);
    CHECK(page.last("session").at("cause") == "");
    const json hello = house.open("tom").last("hello");
    CHECK(hello.at("firm") == "DLR1");
    CHECK(hello.at("banner") == "A venue to try.");
    CHECK(hello.at("date") == date_of(now()));
    CHECK(hello.at("days") == json::array());
    CHECK(hello.at("mostLines") == 0);
    CHECK(hello.at("traders") == json::array({json{{"login", "tess"}, {"trader", "T1"}},
                                              json{{"login", "tom"}, {"trader", "T4"}}}));
    CHECK(hello.at("market").at("role") == "dealer");
    CHECK(hello.at("market").at("limits").at("exposure") == 10'000'000);
    CHECK(hello.at("market").at("limits").at("quotes") == 4096);
    CHECK(hello.at("market").at("dealers") == json{"DLR1", "DLR2"});
    CHECK(hello.at("market").at("bonds").at(1).at("low") == 80 * 256);
    CHECK(hello.at("trader").at("login") == "tom");
    CHECK(hello.at("trader").at("mayAct") == true);
    CHECK(hello.at("trader").at("isAdmin") == false);
    CHECK(hello.at("locksAfter") == 30);
    CHECK(hello.at("deliverWithin") == 5000);

    house.show("R1");
    CHECK(page.last("requests").at("requests").at(0).at("id") == "R1");
    CHECK(page.last("session").at("open") == 1);
    house.show("R2", cedar, "2");

    SUBCASE("a quote, with its price on the request's side, and its end") {
        const Message quote = sent(house, "tess", quote_of("R1", 25'473));
        CHECK(quote.type() == "S");
        CHECK(quote.get(49) == "DLR1");
        CHECK(quote.get(tag::sender_sub_id) == "T1");
        CHECK(quote.get(tag::quote_req_id) == "R1");
        CHECK(quote.get(tag::security_id) == alder);
        CHECK(quote.get(tag::id_source) == "4");
        CHECK(quote.get(tag::offer) == "99.50390625");
        CHECK_FALSE(quote.has(tag::bid));
        CHECK_FALSE(quote.has(tag::valid_until));
        CHECK(page.last("changes").at("changes").at(0).at("id") == "R1");
        CHECK(house.act("tom", quote_of("R1", 25'472)) ==
              "Wait: the quote of T1 is not answered yet.");
        const Moment begun = now();
        const Message bid = sent(house, "tom", quote_of("R2", 99 * 256, "", 60));
        CHECK(bid.get(tag::sender_sub_id) == "T4");
        CHECK(bid.get(tag::bid) == "99");
        CHECK_FALSE(bid.has(tag::offer));
        CHECK(is_from(bid.moment(tag::valid_until), begun, std::chrono::seconds(60)));
        CHECK(bid.get(tag::quote_id) != quote.get(tag::quote_id));
        house.show("R3");
        const Message longest = sent(house, "tom", quote_of("R3", 99 * 256, "", 86'400));
        REQUIRE(longest.moment(tag::valid_until));
        CHECK(house.request("R3").at("deadline") ==
              milliseconds_of(*longest.moment(tag::valid_until)));
    }
    SUBCASE("a withdrawal, a decline and a cancel of all") {
        const std::string id = live(house, "tess", "R1", 25'472);
        CHECK(house.request("R1").at("quotes").at(0).at("id") == id);
        CHECK(page.last("session").at("exposure") == 2'000'000);
        CHECK(page.last("session").at("accepted") == 1);
        CHECK(house.act("tess", of_request("decline", "R1")) == "Withdraw the live quote first.");
        const Message withdrawal = sent(house, "tom", of_request("withdraw", "R1"));
        CHECK(withdrawal.type() == "Z");
        CHECK(withdrawal.get(tag::quote_id) == id);
        CHECK(withdrawal.get(tag::cancel_type) == "5");
        CHECK(withdrawal.get(tag::sender_sub_id) == "T4");
        const Message decline = sent(house, "tess", of_request("decline", "R2"));
        CHECK(decline.type() == "AG");
        CHECK(decline.get(tag::quote_req_id) == "R2");
        CHECK(decline.get(tag::request_reason) == "10");
        const Message cancel = sent(house, "tess", {{"do", "cancel all"}});
        CHECK(cancel.type() == "Z");
        CHECK(cancel.get(tag::cancel_type) == "4");
        CHECK_FALSE(cancel.has(tag::quote_id));
        CHECK(page.last("session").at("notice").at("text") ==
              "Cancel all sent by T1, not answered yet");
        CHECK(page.last("programs").at("programs").at(0).at("isStopped") == true);
        CHECK(page.last("programs").at("programs").at(0).at("by") == "tess");
    }
    SUBCASE("who looks only, an admin and a program may not do all") {
        const std::string looks = "You may only look: ask for the permission to act.";
        const std::string admins = "Only the firm's admin may do this.";
        CHECK(house.act("lou", quote_of("R1", 25'472)) == looks);
        CHECK(house.act("lou", {{"do", "cancel all"}}) == looks);
        CHECK(page.last("programs").at("programs").at(0).at("isStopped") == false);
        CHECK(house.act("lou", {{"do", "stop program"}, {"name", "P1"}}) == looks);
        CHECK(house.act("tess", {{"do", "set distance"}, {"distance", 128}}) == admins);
        CHECK(house.act("tess", {{"do", "set reference"}, {"bond", alder}, {"price", 1}}) ==
              admins);
        CHECK(
            house.act("tess",
                      {{"do", "set limits"}, {"login", "tom"}, {"quantity", 1}, {"exposure", 1}}) ==
            admins);
        CHECK(house.act("ada", quote_of("R1", 25'472)) == looks);
        CHECK(house.act("tess", ask_of(alder, 5)) == "A dealer's desk does not do this.");
        CHECK(house.act("tess", {{"do", "save group"}, {"name", "x"}, {"dealers", {"DLR1"}}}) ==
              "A dealer's desk does not do this.");
    }
    SUBCASE("an admin's limits hold at once") {
        const json limits{{"do", "set limits"},
                          {"login", "tess"},
                          {"quantity", 1'999'999},
                          {"exposure", nullptr}};
        CHECK(house.act("ada", limits) == "");
        const std::string above = "The quantity is above the 1,999,999 that your desk allows you.";
        CHECK(house.act("tess", quote_of("R1", 25'472)) == above);
        CHECK(house.act(house.program(), quote_of("R1", 25'472)) == above);
        CHECK(house.act(
                  "ada",
                  {{"do", "set limits"}, {"login", "nobody"}, {"quantity", 1}, {"exposure", 1}}) ==
              "The desk has no trader 'nobody'.");
        CHECK(sent(house, "tom", quote_of("R1", 25'472)).type() == "S");
        house.site->tick();
        const Page ada = house.open("ada");
        CHECK(ada.last("limits").at("traders").at(1).at("used") == 2'000'000);
        CHECK(ada.last("limits").at("traders").at(0).at("used") == 0);
    }
    SUBCASE("a reference and a distance bind a program, and are told within a second") {
        const Page program = house.program();
        const std::string nothing =
            "There is nothing to compare the price with: the firm sets a reference first.";
        CHECK(house.act(program, quote_of("R1", 25'472)) == nothing);
        CHECK(house.act("ada", {{"do", "set reference"}, {"bond", "none"}, {"price", 1}}) ==
              "The market has no bond 'none'.");
        CHECK(house.act("ada", {{"do", "set reference"}, {"bond", alder}, {"price", 0}}) ==
              "This is no price that the venue would take.");
        CHECK(house.act("ada", {{"do", "set distance"}, {"distance", 0}}) ==
              "The distance has to be from 1/256 to 999 points.");
        const std::size_t before = page.socket->all("references").size();
        house.site->tick();
        CHECK(page.socket->all("references").size() == before);
        CHECK(house.act("ada", {{"do", "set reference"}, {"bond", alder}, {"price", 25'344}}) ==
              "");
        CHECK(house.act("ada", {{"do", "set distance"}, {"distance", 64}}) == "");
        CHECK(house.told.count("Distance from references set by ada: 0.25") == 1);
        CHECK(page.socket->all("references").size() == before);
        house.site->tick();
        CHECK(page.socket->all("references").size() == before + 1);
        const json told = page.last("references");
        CHECK(told.at("distance") == 64);
        CHECK(told.at("references").at(alder).at("price") == 25'344);
        CHECK(told.at("references").at(alder).at("by") == "ada");
        house.site->tick();
        CHECK(page.socket->all("references").size() == before + 1);
        CHECK(house.act(program, quote_of("R1", 25'409)) ==
              "The price is more than 0.25 from the reference 99.");
        CHECK(house.act(program, quote_of("R1", 25'408)) == "");
        CHECK(house.venue.hear().get(tag::sender_sub_id) == "P1");
        CHECK(house.request("R1").at("quotes").at(0).at("program") == "P1");
        CHECK(house.act("ada", {{"do", "set reference"}, {"bond", alder}, {"price", nullptr}}) ==
              "");
        CHECK(house.act("ada", {{"do", "set distance"}, {"distance", nullptr}}) == "");
        house.site->tick();
        CHECK(page.last("references").at("references") == json::object());
        CHECK(page.last("references").at("distance") == 256);
    }
    SUBCASE("a program is stopped at once, and released by a person") {
        const Page program = house.program();
        const std::string stopped = "This program is stopped: a trader has to release it.";
        CHECK(house.act("tom", {{"do", "stop program"}, {"name", "P9"}}) ==
              "The desk has no program 'P9'.");
        CHECK(house.act("tom", {{"do", "release program"}, {"name", "P9"}}) ==
              "The desk has no program 'P9'.");
        CHECK(house.act("tom", {{"do", "release program"}, {"name", "P1"}}) ==
              "This program is not stopped.");
        CHECK(house.act("ada", {{"do", "stop program"}, {"name", "P1"}}) == "");
        CHECK(house.told.count("Program P1 stopped by ada") == 1);
        CHECK(page.last("programs").at("programs").at(0).at("by") == "ada");
        CHECK(house.act(program, of_request("decline", "R1")) == stopped);
        CHECK(house.act(program, of_request("withdraw", "R1")) ==
              "There is no live quote to withdraw.");
        CHECK(house.act("tom", {{"do", "release program"}, {"name", "P1"}}) == "");
        CHECK(house.told.count("Program P1 released by tom") == 1);
        CHECK(page.last("programs").at("programs").at(0).at("isStopped") == false);
        CHECK(house.act(program, of_request("decline", "R1")) == "");
        CHECK(house.venue.hear().type() == "AG");
        for (const json &command :
             {json{{"do", "cancel all"}}, json{{"do", "stop program"}, {"name", "P1"}},
              json{{"do", "release program"}, {"name", "P1"}}, of_request("release", "R1"),
              json{{"do", "hand over"}, {"request", "R1"}, {"to", "tom"}},
              json{{"do", "set distance"}, {"distance", 1}},
              json{{"do", "set limits"}, {"login", "tom"}, {"quantity", 1}, {"exposure", 1}}}) {
            CAPTURE(command.dump());
            CHECK(house.act(program, command) == "A program may not do this.");
        }
        CHECK(house.act(program, {{"do", "set reference"}, {"bond", alder}, {"price", 1}}) ==
              "Only the firm's admin may do this."); // as the trader whose rights it has
        CHECK(page.last("programs").at("programs").at(0).at("isStopped") == false);
    }
    SUBCASE("what traders tell each other of a request") {
        CHECK(house.act("tess", of_request("claim", "R1")) == "");
        CHECK(house.request("R1").at("claimed").at("login") == "tess");
        CHECK(house.request("R1").at("claimed").at("trader") == "T1");
        CHECK(house.act("tom", of_request("claim", "R1")) == "T1 has claimed it.");
        CHECK(house.act("tess", {{"do", "hand over"}, {"request", "R1"}, {"to", "lou"}}) ==
              "The desk has no trader 'lou' who may quote.");
        CHECK(house.act("tess", {{"do", "hand over"}, {"request", "R1"}, {"to", "tom"}}) == "");
        CHECK(house.request("R1").at("claimed").at("login") == "tom");
        CHECK(house.request("R1").at("claimed").at("trader") == "T4");
        CHECK(house.act("tess", of_request("release", "R1")) == "");
        CHECK(house.request("R1").at("claimed").is_null());
        CHECK(house.act("tess", of_request("release", "R1")) == "Nobody has claimed it.");
    }
    SUBCASE("a connection that is lost: what binds is not sent, a cancel waits for its return") {
        const std::string id = live(house, "tess", "R1", 25'472);
        const std::int64_t begun = milliseconds_of(now());
        CHECK(page.last("session").at("since") <= begun);
        house.lose();
        CHECK(page.last("session").at("on") == false);
        CHECK(page.last("session").at("since") >= begun);
        CHECK(house.act("tess", quote_of("R2", 99 * 256)) == not_connected);
        CHECK(house.act("tess", of_request("decline", "R2")) == not_connected);
        CHECK(house.act("tess", of_request("withdraw", "R1")) == "");
        CHECK(house.act("tess", of_request("claim", "R2")) == "");
        house.connect();
        CHECK(page.last("session").at("on") == true);
        const Message withdrawal = house.venue.hear();
        CHECK(withdrawal.type() == "Z");
        CHECK(withdrawal.get(tag::quote_id) == id);
    }
}

TEST_CASE("an investor's traders: a request, a hit, a pass, a group and a list") {
    House house(Role::investor);
    const Page page = house.open("tess");
    CHECK(house.act(page, ask_of(alder, 5)) == not_connected);
    CHECK(house.act(page, list_of("Monday", {line_of(alder, 5)})) == not_connected);
    house.connect();
    CHECK(page.last("hello").at("market").at("role") == "investor");
    CHECK(page.last("hello").at("mostLines") == 200);
    CHECK(page.last("hello").at("market").at("limits").at("quantity") == 5'000'000);
    CHECK(page.last("hello").at("market").at("limits").at("requests") == 1024);
    CHECK(page.last("hello").at("market").at("limits").at("open") == 8);
    CHECK(page.last("lists").at("lists") == json::array());
    // As the venue shows a quote of a dealer, and takes a request.
    const auto ask = [&](const std::string &login, const json &command) {
        const Message request = sent(house, login, command);
        const std::string id = request.get(tag::quote_req_id);
        house.venue.say("AI", "131=" + id + "|297=0|");
        house.until([&] { return house.request(id).at("state") == "open"; });
        return request;
    };
    const auto show = [&](const std::string &request, const std::string &quote,
                          const std::string &price) {
        house.venue.say("S", "131=" + request + "|117=" + quote + "|55=[N/A]|48=" + alder +
                                 "|22=4|54=2|132=" + price + "|537=1|453=1|448=DLR2|447=D|452=35|");
        house.until([&] { return !house.request(request).at("quotes").empty(); });
    };

    SUBCASE("a request and its hit") {
        const Moment begun = now();
        const Message request = ask("tess", ask_of(alder, 5'000'000));
        const std::string id = request.get(tag::quote_req_id);
        CHECK(request.type() == "R");
        CHECK(request.get(tag::sender_sub_id) == "T1");
        CHECK(request.get(tag::symbol) == "[N/A]");
        CHECK(request.get(tag::security_id) == alder);
        CHECK(request.get(tag::id_source) == "4");
        CHECK(request.get(tag::side) == "2");
        CHECK(request.get(tag::order_qty) == "5000000");
        CHECK(request.all(tag::party) == std::vector<std::string>{"DLR2", "DLR1"});
        CHECK(is_from(request.moment(tag::expire_time), begun, std::chrono::seconds(60)));
        show(id, "Q1", "99.5");
        const json hit{{"do", "hit"}, {"request", id}, {"quote", "Q1"}, {"price", 25'472}};
        json other = hit;
        other["price"] = 25'471;
        CHECK(house.act("tom", other) == "Another price was shown to you: look again.");
        CHECK(house.act("lou", hit) == "You may only look: ask for the permission to act.");
        const Message response = sent(house, "tom", hit);
        CHECK(response.type() == "AJ");
        CHECK(response.get(tag::quote_id) == "Q1");
        CHECK(response.get(tag::response_type) == "1");
        CHECK_FALSE(response.has(tag::quote_req_id));
        house.venue.say("AI", "693=" + response.get(tag::response_id) +
                                  "|117=Q1|297=0|1003=20260314-INV1-DLR2-1|");
        house.until([&] { return house.request(id).at("state") == "done"; });
        CHECK(house.request(id).at("award").at("trader") == "T4");
        CHECK(page.last("session").at("accepted") == 1);
    }
    SUBCASE("a pass, a group, and what a dealer alone does") {
        const std::string id = ask("tess", ask_of(alder, 7)).get(tag::quote_req_id);
        const Message pass = sent(house, "tom", of_request("pass", id));
        CHECK(pass.type() == "AJ");
        CHECK(pass.get(tag::quote_req_id) == id);
        CHECK(pass.get(tag::response_type) == "6");
        CHECK_FALSE(pass.has(tag::quote_id));
        CHECK(house.act("tom", of_request("pass", id)) ==
              "Wait: the pass of T4 is not answered yet.");
        CHECK(house.act("tess", {{"do", "cancel all"}}) == "An investor's desk does not do this.");
        CHECK(house.act("tess", {{"do", "save group"}, {"name", "big"}, {"dealers", {"DLR2"}}}) ==
              "");
        CHECK(house.act("tess", {{"do", "save group"}, {"name", ""}, {"dealers", {"DLR2"}}}) ==
              "A group's name has 1 to 24 characters.");
        CHECK(house.open("tess").last("hello").at("groups") == json{{"big", {"DLR2"}}});
        CHECK(house.open("tom").last("hello").at("groups") == json::object());
        CHECK(json::parse(std::ifstream(house.config.data + "/groups.json")) ==
              json{{"tess", {{"big", {"DLR2"}}}}});
    }
    SUBCASE(
        "a list is asked at the pace of the firm's limits, and a line that can't be is refused") {
        std::vector<json> lines(10, line_of(alder, 5));
        lines[1] = line_of(cedar, 9);
        lines[2]["side"] = "sell";
        CHECK(house.act("tess", list_of("Monday", {line_of("none", 5)})) ==
              "Line 1: Choose a bond.");
        CHECK(house.act("tess", list_of("Monday", lines)) == "");
        const json list = page.last("lists").at("lists").at(0);
        CHECK(list.at("name") == "Monday");
        CHECK(list.at("trader") == "T1");
        CHECK(list.at("lines").size() == 10);
        CHECK(list.at("lines").at(0).at("state") == "waiting");
        std::vector<Message> asked;
        const Moment begun = now();
        house.site->tick();
        house.until([&] {
            return page.last("lists").at("lists").at(0).at("lines").at(4).at("state") == "sent";
        });
        for (int count = 0; count < 5; ++count) {
            asked.push_back(house.venue.hear());
        }
        CHECK(page.last("lists").at("lists").at(0).at("lines").at(5).at("state") == "waiting");
        const std::string id = list.at("id");
        CHECK(asked[0].get(tag::quote_req_id) == id + "-0");
        CHECK(asked[1].get(tag::security_id) == cedar);
        CHECK(asked[1].get(tag::order_qty) == "9");
        CHECK(asked[1].get(tag::side) == "1");
        CHECK(asked[2].get(tag::side) == "2");
        for (const Message &one : asked) {
            CHECK(one.type() == "R");
            CHECK(one.get(tag::sender_sub_id) == "T1");
            CHECK(one.all(tag::party) == std::vector<std::string>{"DLR1"});
            CHECK(is_from(one.moment(tag::expire_time), begun, std::chrono::seconds(60)));
        }
        CHECK(asked[4].get(tag::quote_req_id) == id + "-4");
        CHECK(house.request(id + "-1").at("list") == json{{"id", id}, {"line", 1}});
        house.until([&] { // eight requests of a firm are open at once
            house.site->tick();
            return page.last("lists").at("lists").at(0).at("lines").at(7).at("state") == "sent";
        });
        for (int count = 0; count < 3; ++count) {
            asked.push_back(house.venue.hear());
        }
        house.site->tick();
        house.site->tick();
        CHECK(page.last("lists").at("lists").at(0).at("lines").at(8).at("state") == "waiting");
        CHECK(house.act("tess", ask_of(alder, 5)) ==
              "As many requests are open as your firm may have: pass one first.");
        CHECK(house.act("tom", {{"do", "stop list"}, {"list", "none"}}) ==
              "There is no such list.");
        CHECK(house.act("tom", {{"do", "stop list"}, {"list", id}}) == "");
        CHECK(page.last("lists").at("lists").at(0).at("lines").at(8).at("state") == "stopped");
        CHECK(page.last("lists").at("lists").at(0).at("lines").at(8).at("why") == "Stopped by T4.");
        CHECK(house.open("tom").last("lists").at("lists").size() == 1);
    }
    SUBCASE("a list stops where the venue is lost, and the desk takes thirty-two that wait") {
        CHECK(house.act(page, list_of("Monday", {line_of(alder, 5)})) == "");
        house.lose();
        house.site->tick();
        const auto line = [&] { return page.last("lists").at("lists").at(0).at("lines").at(0); };
        house.until([&] { return line().at("state") == "stopped"; });
        CHECK(line().at("why") == "The venue is not connected: nothing more of it is asked.");
        house.connect();
        for (int count = 0; count < 32; ++count) {
            CHECK(house.act(page, list_of("Another", {line_of(alder, 5)})) == "");
        }
        CHECK(house.act(page, list_of("Another", {line_of(alder, 5)})) ==
              "The desk takes no more lists for now: stop one first.");
    }
    SUBCASE("a line that was refused right before the venue's day began anew is forgotten") {
        CHECK(house.act(page, list_of("Monday", {line_of(alder, 1'000)})) == "");
        CHECK(house.act("ada", {{"do", "set limits"},
                                {"login", "tess"},
                                {"quantity", 999},
                                {"exposure", nullptr}}) == "");
        house.site->tick();
        house.until([&] {
            const json line = page.last("lists").at("lists").at(0).at("lines").at(0);
            return line.at("state") == "refused";
        });
        house.lose();
        house.venue.let_in_anew();
        house.until([&] {
            return house.own->hello(house.config.traders[0]).at("session").at("on") == true;
        });
        CHECK(house.own->all_lists().at("lists").empty());
        house.site->tick();
        CHECK(house.act(page, list_of("Tuesday", {line_of(alder, 7)})) == "");
        house.site->tick();
        CHECK(house.venue.hear().get(tag::order_qty) == "7");
    }
    SUBCASE("a line is judged when it is asked") {
        CHECK(house.act(page, list_of("Monday", {line_of(alder, 1'000), line_of(alder, 5)})) == "");
        CHECK(house.act("ada", {{"do", "set limits"},
                                {"login", "tess"},
                                {"quantity", 999},
                                {"exposure", nullptr}}) == "");
        house.site->tick();
        const auto lines = [&] { return page.last("lists").at("lists").at(0).at("lines"); };
        house.until([&] {
            return lines().at(0).at("state") == "refused" && lines().at(1).at("state") == "sent";
        });
        CHECK(lines().at(0).at("why") == "The quantity has to be from 1 to 999.");
        CHECK(house.venue.hear().get(tag::order_qty) == "5");
    }
}

TEST_CASE("what the desk answers of earlier days and of prices") {
    const std::string long_ago = "20200314";
    House house(Role::dealer, [&](Config &config) {
        BondTerms terms;
        terms.currency = "USD";
        terms.coupon = 5;
        terms.dated = std::chrono::year(2020) / 1 / 15;
        terms.maturity = std::chrono::year(2060) / 1 / 15;
        config.bonds[alder] = terms;
        config.bonds["coarse"] = terms;
        config.market.bonds.push_back({"coarse", "Coarse 5 2060", 32, {}});
        Journal journal(config.data + "/journal-" + long_ago, [](const Entry &) {});
        for (int number = 1; number <= 40; ++number) {
            journal.write(entry(Entry::Kind::received, 1000 + number,
                                "35=R|34=" + std::to_string(number) +
                                    "|52=20260314-00:00:01.000|131=R" + std::to_string(number) +
                                    "|48=" + (number == 40 ? cedar : alder) +
                                    "|54=1|38=2000000|126=20260314-00:05:00.000|448=INV1|"));
        }
        put(config.data + "/journal-20200315", "no journal\n");
        put(config.data + "/journal-20200314.cut", "x");
        put(config.data + "/journal-2020031x", "x");
        put(config.data + "/other", "x");
    });
    const Page page = house.open("tess");
    CHECK(page.last("hello").at("days") == json{"20200315", "20200314"});
    CHECK(house.ask(page, {{"do", "day"}, {"date", "20260101"}}).at(0).at("why") ==
          "The desk has no journal of this day.");

    const std::vector<json> parts = house.ask(page, {{"do", "day"}, {"date", long_ago}});
    REQUIRE(parts.size() == 3);
    CHECK(parts[0].at("t") == "day");
    CHECK(parts[0].at("date") == long_ago);
    CHECK(parts[0].at("requests").size() == 32);
    CHECK(parts[0].at("last") == false);
    CHECK(parts[0].at("requests").at(0).at("id") == "R1");
    CHECK(parts[0].at("requests").at(0).contains("settles"));
    CHECK(parts[1].at("requests").size() == 8);
    CHECK(parts[2].at("requests").empty());
    CHECK(parts[2].at("last") == true);
    CHECK(parts[2].at("why") == "");

    const auto found = [&](const std::string &words) {
        std::vector<std::string> ids;
        for (const json &part : house.ask(page, {{"do", "find"}, {"find", words}})) {
            for (const json &request : part.at("requests")) {
                ids.push_back(request.at("id"));
            }
        }
        return ids;
    };
    CHECK(found("cedar") == std::vector<std::string>{"R40"});
    CHECK(found("CEDAR inv1 2m") == std::vector<std::string>{"R40"});
    CHECK(found("2,000,000 Cedar") == std::vector<std::string>{"R40"});
    CHECK(found("2000k cedar 4.75") == std::vector<std::string>{"R40"});
    CHECK(found("cedar inv2").empty());
    CHECK(found("cedar 3m").empty());
    CHECK(found("").size() == 40);
    CHECK(house.ask(page, {{"do", "find"}, {"find", "inv1"}}).back().at("date") == "20200315");

    const auto price = [&](const json &of) {
        json question{{"do", "price"}, {"bond", alder}, {"quantity", 1'000'000}};
        question.update(of);
        return house.ask(page, question).at(0);
    };
    const json priced = price({{"price", 25'600}});
    CHECK(priced.at("t") == "priced");
    CHECK(priced.at("yield").get<double>() == doctest::Approx(5).epsilon(0.01));
    CHECK(priced.at("amounts").at("principal") == 1'000'000);
    CHECK(priced.at("currency") == "USD");
    CHECK(price({{"yield", 5}}).at("price").get<int>() == doctest::Approx(25'600).epsilon(0.01));
    int finer = 0; // yields whose nearest price is on no grid of 32
    for (int basis_point = 0; basis_point < 10; ++basis_point) {
        const json yield{{"yield", 4.8 + 0.01 * basis_point}};
        json coarse = yield;
        coarse["bond"] = "coarse";
        const int fine = price(yield).at("price"), rounded = price(coarse).at("price");
        CHECK(rounded % 8 == 0);
        CHECK(std::abs(rounded - fine) <= 4);
        finer += fine % 8 != 0;
    }
    CHECK(finer > 0);
    CHECK(price({{"yield", -19}}).at("why") == "No price of the venue has this yield.");
    CHECK(price({{"price", 25'600}, {"bond", cedar}}).at("why") ==
          "The desk has no data of this bond.");
    CHECK(price({{"price", 25'600}, {"quantity", 0}}).at("why") == "The quantity is out of range.");
    CHECK(price({{"price", 25'600}, {"quantity", 1'000'000'000'001}}).at("why") ==
          "The quantity is out of range.");
    CHECK(price({{"price", 25'600}, {"quantity", 1}}).at("t") == "priced");
    CHECK(price({{"price", 25'600}, {"quantity", 1'000'000'000'000}}).at("t") == "priced");

    // Four looks of one trader wait for the disk, and sixteen of all.
    int answered = 0, refused = 0;
    const auto look = [&](const Trader &trader) {
        house.own->answer(
            trader, Query(query::OneDay{long_ago, "none"}), [&](const Desk::Answer &answer) {
                answered += !answer.message.is_null();
                refused += answer.why == "Many look at earlier days just now: try again.";
            });
    };
    for (const Trader &trader : house.config.traders) {
        for (int count = 0; count < 5; ++count) {
            look(trader);
        }
    }
    CHECK(refused == 4);
    look(house.config.programs[0].acts_as);
    CHECK(refused == 5);
    house.until([&] { return answered == 16; });
    look(house.config.traders[0]);
    house.until([&] { return answered == 17; });
}

TEST_CASE("a start goes on with the day that the journal has, and stops what was not asked") {
    House house(Role::investor, [](Config &config) {
        put(config.data + "/programs.json", R"({"T1": {"by": "ada", "at": 0}})");
        const std::string moment = fix_text(now());
        Journal journal(config.data + "/journal-" + date_of(now()), [](const Entry &) {});
        const auto put = [&](Entry::Kind kind, const std::string &bytes) {
            journal.write({kind, now(), fix(bytes)});
        };
        put(Entry::Kind::sent, "35=R|34=7|50=T1|52=" + moment +
                                   "|131=A1|48=BONDA0000001|54=1|38=5|126=" + moment +
                                   "|448=DLR1|");
        put(Entry::Kind::note,
            R"({"do":"ask list","list":"L1","name":"Monday","seconds":60,"dealers":["DLR1"],"login":"tess","trader":"T1",)"
            R"("lines":[{"bond":"BONDA0000001","side":"buy","quantity":5}]})");
        put(Entry::Kind::note,
            R"({"do":"ask list","list":"L2","name":"Old","seconds":60,"dealers":["DLR1"],"login":"tess","trader":"T1",)"
            R"("lines":[{"bond":"BONDA0000001","side":"buy","quantity":5}]})");
        put(Entry::Kind::note,
            R"({"do":"stop list","list":"L2","why":"enough","login":"tess","trader":"T1"})");
    });
    const Page page = house.open("tess");
    CHECK(page.last("requests").at("requests").at(0).at("id") == "A1");
    CHECK(page.last("hello").at("session").at("open") == 1);
    house.own->start(*house.site);
    house.is_started = true;
    CHECK(house.venue.let_in().get(tag::msg_seq_num) == "8");
    const auto line = [&] {
        const std::vector<json> told = page.socket->all("lists");
        return told.back().at("lists").at(0).at("lines").at(0);
    };
    house.until([&] { return line().at("state") == "stopped"; });
    CHECK(line().at("why") == "The desk was started anew: nothing more of it is asked.");
    CHECK(page.socket->all("requests").size() == 1); // what a page has is not told it again
    const json lists = house.own->all_lists().at("lists");
    CHECK(lists.at(1).at("lines").at(0).at("why") == "enough");
    house.until(
        [&] { return house.own->hello(house.config.traders[0]).at("session").at("on") == true; });
    // A program that was stopped had the name that is a trader's by now.
    CHECK(house.act(page, of_request("pass", "A1")) ==
          "Wait: the request of T1 is not answered yet.");
}

// What the venue did not read before the connection was lost, it asks for when the firm is back.
TEST_CASE("what binds an investor is not delivered late, and a pass is") {
    constexpr std::chrono::seconds within{3};
    House house(Role::investor, [&](Config &config) { config.deliver_within = within; });
    house.connect();
    std::vector<std::string> ids;
    for (int count = 0; count < 2; ++count) {
        ids.push_back(sent(house, "tess", ask_of(alder, 5)).get(tag::quote_req_id));
        house.venue.say("AI", "131=" + ids.back() + "|297=0|");
        house.venue.say("S", "131=" + ids.back() + "|117=Q" + ids.back() + "|55=[N/A]|48=" + alder +
                                 "|22=4|54=2|132=99|537=1|453=1|448=DLR2|447=D|452=35|");
        house.until([&] { return !house.request(ids.back()).at("quotes").empty(); });
    }
    CHECK(house.act(
              "tess",
              {{"do", "hit"}, {"request", ids[0]}, {"quote", "Q" + ids[0]}, {"price", 25'344}}) ==
          "");
    CHECK(house.act("tess", of_request("pass", ids[1])) == "");
    CHECK(house.act("tom", ask_of(cedar, 7)) == "");
    const std::string asked = house.own->requests().back().at("requests").back().at("id");
    house.lose();
    const Moment lost = now();
    house.until([&] { return now() > lost + within; });
    house.connect();
    const Message pass = house.venue.hear();
    CHECK(pass.type() == "AJ");
    CHECK(pass.get(tag::response_type) == "6");
    CHECK(pass.get(tag::quote_req_id) == ids[1]);
    CHECK(pass.get(tag::poss_dup) == "Y");
    house.until([&] { return house.request(asked).at("state") == "undelivered"; });
    const std::string late =
        "never delivered: the connection or the disk stalled, and it is too old";
    CHECK(house.request(asked).at("told").at("text") == "Request " + late);
    CHECK(house.request(ids[0]).at("told").at("text") == "Hit " + late);
    CHECK(house.request(ids[0]).at("pending").empty());
    CHECK(house.request(ids[0]).at("state") == "open");
    CHECK(house.request(ids[1]).at("pending").size() == 1);
    CHECK(sent(house, "tess", ask_of(alder, 9)).get(tag::order_qty) == "9");
}

TEST_CASE("what binds a dealer is not delivered late, and what takes back or declines is") {
    constexpr std::chrono::seconds within{3};
    House house(Role::dealer, [&](Config &config) { config.deliver_within = within; });
    house.connect();
    for (const std::string request : {"R1", "R2", "R3", "R4"}) {
        house.show(request);
    }
    const std::string id = live(house, "tess", "R1", 25'472);
    CHECK(house.act("tess", quote_of("R2", 25'472)) == "");
    CHECK(house.act("tess", of_request("withdraw", "R1")) == "");
    CHECK(house.act("tess", of_request("decline", "R3")) == "");
    CHECK(house.act("tess", {{"do", "cancel all"}}) == "");
    house.lose();
    const Moment lost = now();
    house.until([&] { return now() > lost + within; });
    house.connect();
    const Message withdrawal = house.venue.hear();
    CHECK(withdrawal.type() == "Z");
    CHECK(withdrawal.get(tag::quote_id) == id);
    CHECK(house.venue.hear().type() == "AG");
    const Message cancel = house.venue.hear();
    CHECK(cancel.type() == "Z");
    CHECK(cancel.get(tag::cancel_type) == "4");
    house.until(
        [&] { return house.request("R2").at("quotes").at(0).at("state") == "undelivered"; });
    CHECK(house.request("R2").at("told").at("text") ==
          "Quote 99.5 never delivered: the connection or the disk stalled, and it is too old");
    CHECK(sent(house, "tess", quote_of("R4", 25'472)).get(tag::quote_req_id) == "R4");
}

TEST_CASE("while nothing answers at the venue's address a page is told why") {
    House house(Role::dealer, [](Config &config) { config.fix.addresses = {{"127.0.0.1", 1}}; });
    const Page page = house.open("tess");
    house.own->start(*house.site);
    house.is_started = true;
    house.until([&] {
        const std::vector<json> told = page.socket->all("session");
        return !told.empty() && told.back().at("cause") != "";
    });
    CHECK(page.last("session").at("on") == false);
    CHECK(house.act(page, quote_of("R1", 25'472)) == not_connected);
}
