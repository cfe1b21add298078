// What the desk's server serves: logins, pages, and programs, without a venue.
#include <doctest/doctest.h>

#include "file_store.h"
#include "house.h"
#include "late_clock.h"

#include <nlohmann/json.hpp>

using namespace desk;
using namespace desk_tests;
using nlohmann::json;

namespace {

struct Dealer : House {
    Dealer() : House(Role::dealer) {}

    json refused(const std::string &login, const std::string &words,
                 const std::string &address = "192.0.2.1") {
        const web::Response answer =
            post("/login", {{"login", login}, {"password", words}}, "", address);
        CHECK(answer.headers.empty());
        return {answer.status, json::parse(answer.body).at("why")};
    }
    // As it is kept for a restart.
    Moment end_of_last_session() const {
        std::int64_t last = 0;
        for (const json &one : read_json(config.data + "/sessions.json")) {
            last = std::max(last, one.at("until").get<std::int64_t>());
        }
        return Moment(std::chrono::milliseconds(last));
    }
    web::Response get(const std::string &path) {
        web::Request request;
        request.method = web::Method::get;
        request.path = path;
        web::Response found;
        site->answer(request, [&](web::Response answer) { found = std::move(answer); });
        return found;
    }
};

std::string why_closed(const Page &page) {
    return page.socket->messages.empty() ? "" : page.socket->messages.back().value("why", "");
}

} // namespace

TEST_CASE_FIXTURE(Dealer, "a site has its files, and says what it has not") {
    CHECK(get("/").body == "<p>The page.</p>");
    CHECK(get("/").status == 200);
    const web::Response none = get("/none");
    CHECK(none.status == 404);
    CHECK(none.body == "there is no such page\n");
    CHECK(get("/login").status == 404);
    CHECK(post("/elsewhere", json::object()).status == 404);
}

TEST_CASE_FIXTURE(Dealer, "a login is refused in words, and told as an event without a password") {
    CHECK(post("/login", "no object").status == 400);
    CHECK(json::parse(post("/login", 5).body).at("why") == "This is no login.");
    CHECK(refused("tess", "wrong") == json{403, "Wrong login or password."});
    CHECK(refused("a password", password) == json{403, "Wrong login or password."});
    CHECK(post("/login", {{"login", 5}, {"password", password}}).status == 403);
    CHECK(told.count(" DLR1 Login refused: tess from 192.0.2.1: Wrong login or password.") == 1);
    CHECK(told.count(" DLR1 Login refused: a login that nobody has from 192.0.2.1: Wrong") == 2);
    const web::Response answer = post("/login", {{"login", "tess"}, {"password", password}});
    CHECK(answer.status == 200);
    CHECK(answer.content_type == "application/json");
    REQUIRE(answer.headers.size() == 1);
    CHECK(answer.headers[0].first == "Set-Cookie");
    const std::string &cookie = answer.headers[0].second;
    CHECK(cookie.rfind("desk-DLR1-8443=", 0) == 0);
    CHECK(cookie.find("Max-Age=43200") != std::string::npos);
    CHECK(cookie.find("Secure") == std::string::npos);
    CHECK(told.count(" DLR1 Login: tess from 192.0.2.1") == 1);
    CHECK(told.count("a password") + told.count("wrong") == 0);
}

TEST_CASE_FIXTURE(Dealer, "ten wrong tries of a login, and twenty of an address, are enough") {
    const std::string often = "Too many wrong tries: wait a minute.";
    for (int count = 0; count < 10; ++count) {
        CHECK(refused("tess", "wrong", "192.0.2.1")[0] == 403);
    }
    CHECK(refused("tess", password, "192.0.2.2") == json{429, often});
    for (int count = 0; count < 10; ++count) {
        CHECK(refused("other" + std::to_string(count), "wrong", "192.0.2.1")[0] == 403);
    }
    CHECK(refused("tom", password, "192.0.2.1") == json{429, often});
    CHECK(post("/login", {{"login", "tom"}, {"password", password}}, "", "192.0.2.3").status ==
          200);
}

TEST_CASE_FIXTURE(Dealer, "sixteen passwords wait to be judged, and no more") {
    int judged = 0, busy = 0;
    for (int count = 0; count < 18; ++count) {
        logins->log_in("192.0.2." + std::to_string(count), "login" + std::to_string(count), "x",
                       [&](const Logins::Outcome &outcome) {
                           const auto refusal = std::get<Logins::Refusal>(outcome);
                           judged += refusal == Logins::Refusal::wrong;
                           busy += refusal == Logins::Refusal::busy;
                       });
    }
    CHECK(busy == 2);
    until([&] { return judged == 16; });
    CHECK(refused("tess", "x") == json{403, "Wrong login or password."});
}

TEST_CASE("of refused logins sixty in a minute are events") {
    RefusalPace pace;
    const Moment at = *moment_of("20260314-09:00:00.000");
    int told = 0;
    for (int count = 0; count < 100; ++count) {
        told += pace.may_tell(at + std::chrono::milliseconds(count));
    }
    CHECK(told == 60);
    CHECK_FALSE(pace.may_tell(at + std::chrono::milliseconds(59'999)));
    CHECK(pace.may_tell(at + std::chrono::minutes(1)));
}

TEST_CASE_FIXTURE(Dealer, "a logout ends the pages of its login, and nobody else's") {
    const auto [cookie, token] = log_in("tess");
    const Page first = enter(cookie), second = enter(cookie), other = open("tom");
    first.say({{"token", token}});
    second.say({{"token", token}});
    CHECK(post("/logout", {{"token", "another"}}, cookie).status == 403);
    CHECK(json::parse(post("/logout", "none", cookie).body).at("why") == "Not logged in.");
    CHECK(post("/logout", {{"token", token}}, "another").status == 403);
    REQUIRE(first.is_open());
    const web::Response answer = post("/logout", {{"token", token}}, cookie);
    CHECK(answer.status == 200);
    CHECK(answer.body == "{}");
    REQUIRE(answer.headers.size() == 1);
    CHECK(answer.headers[0].second.rfind("desk-DLR1-8443=;", 0) == 0);
    CHECK(answer.headers[0].second.find("Max-Age=0") != std::string::npos);
    CHECK(first.socket->closed == web::CloseCode::policy);
    CHECK(second.socket->closed == web::CloseCode::policy);
    CHECK(other.is_open());
    CHECK(told.count(" DLR1 Logout: tess from 192.0.2.1") == 1);
    CHECK_FALSE(enter(cookie).user);
}

// Whichever look at the clock is the first that finds its end.
TEST_CASE_FIXTURE(Dealer, "a logout at the end of its session") {
    for (int before = 0; before < 4; ++before) {
        CAPTURE(before);
        const auto [cookie, token] = log_in("tess");
        web::Request request;
        request.method = web::Method::post;
        request.path = "/logout";
        request.body = json{{"token", token}}.dump();
        request.content_type = "application/json";
        request.cookies["desk-DLR1-8443"] = cookie;
        std::optional<web::Response> answer;
        {
            const LateClock clock(end_of_last_session() - std::chrono::milliseconds(before));
            site->answer(request, [&](web::Response one) { answer = std::move(one); });
        }
        until([&] { return answer.has_value(); });
        CHECK(answer->status == (before < 2 ? 403U : 200U));
    }
}

TEST_CASE_FIXTURE(Dealer, "a page is told nothing before it has shown its token") {
    const auto [cookie, token] = log_in("tess");
    CHECK_FALSE(enter("another").user);
    web::Request elsewhere;
    elsewhere.path = "/elsewhere";
    elsewhere.cookies["desk-DLR1-8443"] = cookie;
    CHECK_FALSE(site->take_socket(elsewhere));
    for (const json &wrong : {json{{"token", "another"}}, json{{"token", 5}}, json::object(),
                              json{{"do", "cancel all"}, {"number", 1}}, json("text")}) {
        const Page page = enter(cookie);
        page.say(wrong);
        CHECK(page.socket->closed == web::CloseCode::policy);
        CHECK(page.socket->messages.empty());
    }
    const Page page = enter(cookie);
    page.user->heard("{no JSON");
    CHECK_FALSE(page.is_open());
    const Page good = enter(cookie);
    site->tell({{"t", "now"}});
    CHECK(good.socket->messages.empty());
    good.say({{"token", token}});
    std::vector<std::string> types;
    for (const json &one : good.socket->messages) {
        types.push_back(one.at("t"));
    }
    CHECK(types == std::vector<std::string>{"hello", "references", "programs", "requests"});
    CHECK(good.last("requests") ==
          json{{"t", "requests"}, {"requests", json::array()}, {"last", true}});
}

TEST_CASE_FIXTURE(Dealer, "what a page says has to be a command with a number") {
    const auto [cookie, token] = log_in("tess");
    for (const json &wrong : {json{{"do", "fly"}, {"number", 1}}, json{{"do", "cancel all"}},
                              json{{"do", "cancel all"}, {"number", -1}},
                              json{{"do", "cancel all"}, {"number", "1"}}, json{{"do", "find"}}}) {
        CAPTURE(wrong.dump());
        const Page page = enter(cookie);
        page.say({{"token", token}});
        page.say(wrong);
        CHECK_FALSE(page.is_open());
    }
    const Page page = enter(cookie);
    page.say({{"token", token}});
    page.say({{"here", true}});
    CHECK(page.is_open());
    post("/logout", {{"token", token}}, cookie);
    page.say({{"do", "cancel all"}, {"number", 1}});
    CHECK(page.socket->all("said").empty());
}

TEST_CASE_FIXTURE(Dealer, "sixty commands at once are done, of all pages of a login") {
    const Page one = open("tess"), two = open("tess"), other = open("tom");
    for (int count = 0; count < 60; ++count) {
        CHECK(act(count % 2 == 0 ? one : two, {{"do", "decline"}, {"request", "R1"}}) ==
              "Not connected to the venue: nothing was sent.");
    }
    int told_too_many = 0;
    for (int count = 0; count < 200 && told_too_many == 0; ++count) { // twenty a second are done
        told_too_many += act(two, {{"do", "decline"}, {"request", "R1"}}) ==
                         "Too many at once: nothing was sent.";
    }
    CHECK(told_too_many > 0);
    CHECK(act(other, {{"do", "decline"}, {"request", "R1"}}) ==
          "Not connected to the venue: nothing was sent.");
}

TEST_CASE_FIXTURE(Dealer, "a ninth page of a login closes the one that was used least of late") {
    const auto [cookie, token] = log_in("tess");
    std::vector<Page> pages;
    for (int count = 0; count < 8; ++count) {
        pages.push_back(enter(cookie));
        pages.back().say({{"token", token}});
    }
    pages[0].say({{"here", true}});
    const Page other = open("tom");
    CHECK(pages[1].is_open());
    const Page ninth = enter(cookie);
    CHECK(pages[1].is_open());
    ninth.say({{"token", token}});
    CHECK(why_closed(pages[1]) ==
          "This page was closed for a new one: a login may have 8 pages open.");
    CHECK(pages[1].socket->messages.back().at("t") == "closed");
    CHECK_FALSE(pages[1].is_open());
    CHECK(pages[0].is_open());
    CHECK(pages[2].is_open());
    CHECK(other.is_open());
    CHECK(ninth.is_open());
    const std::size_t before = pages[1].socket->messages.size();
    site->tell({{"t", "now"}});
    CHECK(pages[1].socket->messages.size() == before);
    CHECK(ninth.socket->messages.back() == json{{"t", "now"}});
}

TEST_CASE_FIXTURE(Dealer, "whoever has a cookie alone ends no page that has shown its token") {
    const auto [cookie, token] = log_in("tess");
    const Page page = enter(cookie);
    page.say({{"token", token}});
    std::vector<Page> waiting;
    for (int count = 0; count < 9; ++count) {
        waiting.push_back(enter(cookie));
    }
    CHECK_FALSE(waiting[0].is_open());
    CHECK(waiting[1].is_open());
    CHECK(waiting[8].is_open());
    CHECK(page.is_open());
}

TEST_CASE_FIXTURE(Dealer, "twenty pages of a login are opened at once, and no more") {
    const auto [cookie, token] = log_in("tess");
    int refused = 0;
    for (int count = 0; count < 30; ++count) {
        const Page page = enter(cookie);
        page.say({{"token", token}});
        const bool is_refused = why_closed(page) == "This page was not opened: too many of this "
                                                    "login were, just now.";
        CHECK(page.is_open() == !is_refused);
        CHECK((count < 20 ? !is_refused : true));
        refused += is_refused;
    }
    CHECK(refused > 0);
}

TEST_CASE("a desk has sixty-four pages") {
    House house(Role::dealer, [](Config &config) {
        for (int count = 0; count < 8; ++count) {
            Trader more = config.traders[1];
            more.login = "more" + std::to_string(count);
            config.traders.push_back(more);
        }
    });
    house.own->start(*house.site);
    house.is_started = true;
    std::vector<Page> pages;
    for (int login = 0; login < 8; ++login) {
        const auto [cookie, token] = house.log_in("more" + std::to_string(login));
        for (int count = 0; count < 8; ++count) {
            pages.push_back(house.enter(cookie));
            pages.back().say({{"token", token}});
        }
    }
    const Page program = house.program();
    for (const Page &page : pages) {
        CHECK(page.is_open());
    }
    const Page last = house.open("tess");
    CHECK(why_closed(pages[0]) ==
          "This page was closed for a new one: the desk may have 64 pages open.");
    CHECK(pages[1].is_open());
    CHECK(last.is_open());
    CHECK(program.is_open());
}

TEST_CASE_FIXTURE(Dealer, "a program has one connection, by its token, and is told of on pages") {
    own->start(*site);
    is_started = true;
    const Page page = open("tess");
    const auto is_on = [&] { return page.last("programs")["programs"][0]["isOn"]; };
    CHECK(is_on() == false);
    CHECK_FALSE(program("another token").user);
    CHECK(told.count("Program refused: no program has the token, from 192.0.2.7") == 1);
    web::Request bare;
    bare.path = "/program";
    bare.authorization = program_token;
    CHECK_FALSE(site->take_socket(bare));
    const Page first = program();
    REQUIRE(first.user);
    CHECK(first.socket->messages.front().at("t") == "hello");
    CHECK(first.last("hello").at("trader").at("name") == "P1");
    CHECK(is_on() == true);
    CHECK(told.count("Program: P1 from 192.0.2.7") == 1);
    const Page second = program();
    CHECK(why_closed(first) == "This program has connected again.");
    CHECK_FALSE(first.is_open());
    first.user->closed();
    CHECK(is_on() == true);
    CHECK(act(second, {{"do", "claim"}, {"request", "R1"}}) == "A program may not do this.");
    second.user->closed();
    CHECK(is_on() == false);
    CHECK(page.last("programs")["programs"][0]["trader"] == "tess");
    int connections = 2;
    while (program().user) {
        REQUIRE(++connections < 100);
    }
    CHECK(connections >= 20);
    CHECK(told.count("Program refused: it connects too often, from 192.0.2.7") == 1);
    CHECK(page.is_open());
}

TEST_CASE_FIXTURE(Dealer, "each second a page is told the time, and what changed of limits") {
    const Page tess = open("tess"), ada = open("ada");
    CHECK(ada.socket->all("limits").size() == 1);
    CHECK(tess.socket->all("limits").empty());
    site->tick();
    CHECK(tess.last("now").at("now") >= tess.last("hello").at("now"));
    CHECK(ada.socket->all("limits").size() == 1);
    CHECK(tess.socket->all("trader").empty());
    REQUIRE(
        act(ada,
            {{"do", "set limits"}, {"login", "tess"}, {"quantity", 5}, {"exposure", nullptr}}) ==
        "");
    site->tick();
    CHECK(ada.socket->all("limits").size() == 2);
    const json row = ada.last("limits").at("traders").at(0);
    CHECK(row == json{{"login", "tess"},
                      {"trader", "T1"},
                      {"mayAct", true},
                      {"quantity", 5},
                      {"exposure", nullptr},
                      {"used", 0}});
    CHECK(tess.last("trader").at("trader").at("quantity") == 5);
    CHECK(ada.socket->all("trader").empty());
    CHECK(told.count("Limits of tess set by ada: quantity 5, exposure null") == 1);
    const std::size_t before = tess.socket->messages.size();
    site->tick();
    CHECK(tess.socket->messages.size() == before + 1);
}

TEST_CASE_FIXTURE(Dealer, "a page whose login is over is closed") {
    const auto [cookie, token] = log_in("tess");
    const Page page = enter(cookie), other = open("tom");
    page.say({{"token", token}});
    logins->log_out(cookie, [] {});
    site->tick();
    CHECK(page.socket->closed == web::CloseCode::policy);
    CHECK(other.is_open());
    page.user->closed();
    site->tick();
    CHECK(other.is_open());
}

TEST_CASE("who does nothing for so long as the firm says is logged out, and told so") {
    House house(Role::dealer, [](Config &config) { config.lock_after = std::chrono::minutes(0); });
    const Page page = house.open("tess");
    CHECK(page.last("hello").at("locksAfter") == 0);
    house.site->tick();
    CHECK(page.socket->closed == web::CloseCode::policy);
    CHECK(house.told.count("Locked: tess, unused for 0 minutes") == 1);
    house.site->tick();
    CHECK(house.told.count("Locked: ") == 1);
    House other(Role::dealer);
    const Page stays = other.open("tess");
    other.site->tick();
    CHECK(stays.is_open());
}
