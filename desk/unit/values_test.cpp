// Prices, moments, messages, identifiers, cookies, hosts.
#include <doctest/doctest.h>

#include "common/web/connection_slots.h"
#include "common/web/cookies.h"
#include "common/web/secrets.h"
#include "common/web/server_settings.h"
#include "identifiers.h"
#include "message.h"
#include "moment.h"
#include "price.h"
#include "unit.h"

#include <set>
#include <stdexcept>

using namespace desk;

TEST_CASE("a price is read as the venue reads it, and written as it writes it") {
    struct Row {
        const char *read;
        int in_256ths;
        const char *written;
    };
    for (const Row &row :
         {Row{"99.50390625", 25473, "99.50390625"}, Row{"099.5000", 25472, "99.5"},
          Row{".5", 128, "0.5"}, Row{"5.", 1280, "5"}, Row{"0.00390625", 1, "0.00390625"},
          Row{"999.99609375", 255999, "999.99609375"}, Row{"101", 25856, "101"}}) {
        CAPTURE(row.read);
        const auto price = price_of(row.read);
        REQUIRE(price);
        CHECK(price->in_256ths == row.in_256ths);
        CHECK(text_of(*price) == row.written);
    }
    for (const char *none : {"", "-", ".", "9e1", "1.2.3", "1234567890123456", "0", "-1", "0.001",
                             "1000", "999.99609376", "99.501", "0.1", "99,5", " 99", "99 "}) {
        CAPTURE(none);
        CHECK_FALSE(price_of(none));
    }
}

TEST_CASE("a price is on a grid where it is a whole number of its steps") {
    CHECK(Price{25473}.is_on_grid(256));
    CHECK_FALSE(Price{25473}.is_on_grid(128));
    CHECK(Price{25474}.is_on_grid(128));
    CHECK_FALSE(Price{25474}.is_on_grid(64));
    CHECK(Price{25480}.is_on_grid(32));
}

TEST_CASE("a band has both its ends, and what lies between them") {
    const Band band{Price{25344}, Price{25472}};
    for (const int inside : {25344, 25345, 25472}) {
        CHECK(band.has(Price{inside}));
    }
    CHECK_FALSE(band.has(Price{25343}));
    CHECK_FALSE(band.has(Price{25473}));
    CHECK_FALSE(band.has_all());
    CHECK(Band{}.has_all());
    CHECK(Band{}.has(Price{Price::least}));
    CHECK(Band{}.has(Price{Price::greatest}));
}

TEST_CASE("a moment is read in both spellings of FIX, and finer ones are cut") {
    for (const char *text : {"20250314-09:01:02.345", "20250314-09:01:02.345678"}) {
        const auto moment = moment_of(text);
        REQUIRE(moment);
        CHECK(fix_text(*moment) == "20250314-09:01:02.345");
    }
    CHECK(fix_text(*moment_of("20240229-00:00:00")) == "20240229-00:00:00.000");
    CHECK(milliseconds_of(*moment_of("19700101-00:00:01.001")) == 1001);
    CHECK(date_of(*moment_of("20261231-23:59:59.999")) == "20261231");
    for (const char *none :
         {"", "20250314", "20250314-09:01", "20250230-09:01:02", "2025031409:01:02",
          "20250314-09:01:02.", "20250314-09:01:02.3", "20250314-0a:01:02"}) {
        CAPTURE(none);
        CHECK_FALSE(moment_of(none));
    }
    const std::string_view whole = "20250314-09:01:02";
    for (std::size_t size = 0; size < whole.size(); ++size) {
        CHECK_FALSE(moment_of(whole.substr(0, size)));
    }
    CHECK(moment_of(whole));
}

TEST_CASE("a message gives the first field of a tag, and all of a group") {
    const Message message(desk_tests::fix("35=R|131=A|448=DLR1|447=D|448=DLR2|38=2000000|58=|"));
    CHECK(message.type() == "R");
    CHECK(message.get(448) == "DLR1");
    CHECK(message.all(448) == std::vector<std::string>{"DLR1", "DLR2"});
    CHECK(message.number(38) == 2000000);
    CHECK(message.number(131) == 0);
    CHECK_FALSE(message.has(58));
    CHECK_FALSE(message.has(99));
}

TEST_CASE("an identifier is given once, also by another process of the same day") {
    const Moment begin = *moment_of("20260314-09:00:00.000");
    std::set<std::string> all;
    for (int process = 0; process < 3; ++process) {
        Identifiers identifiers(begin + std::chrono::milliseconds(process));
        for (int count = 0; count < 100; ++count) {
            const std::string next = identifiers.next('Q');
            CHECK(next.size() <= 40);
            all.insert(next);
        }
    }
    CHECK(all.size() == 300);
}

TEST_CASE("of a cookie that is given twice there is none") {
    const web::Cookies cookies = web::cookies_of("a=1; b=2; a=3; =4; c; d=5=6");
    CHECK(cookies.size() == 3);
    CHECK(cookies.at("b") == "2");
    CHECK(cookies.at("d") == "5=6");
    const std::string set = web::set_cookie("desk", "s", std::chrono::seconds(60), true);
    CHECK(set == "desk=s; Path=/; HttpOnly; SameSite=Strict; Max-Age=60; Secure");
}

TEST_CASE("a page of another host or port is none of the server's own") {
    const web::Names plain(web::ServerSettings{}, 8101);
    CHECK(plain.address() == "http://127.0.0.1:8101/");
    CHECK(plain.is_own_origin("http://127.0.0.1:8101", "127.0.0.1:8101"));
    CHECK(plain.is_own_origin("http://localhost:8101", "localhost:8101"));
    for (const char *origin :
         {"", "null", "http://127.0.0.1", "http://127.0.0.1:8102", "https://127.0.0.1:8101",
          "http://evil.example", "http://localhost:8101"}) {
        CAPTURE(origin);
        CHECK_FALSE(plain.is_own_origin(origin, "127.0.0.1:8101"));
    }
    CHECK_FALSE(plain.is_host("evil.example:8101"));
    CHECK_FALSE(plain.is_host("127.0.0.1"));
}

TEST_CASE("beyond this machine nobody is served without TLS and a name") {
    web::ServerSettings settings;
    settings.address = "0.0.0.0";
    CHECK_THROWS_AS(web::check(settings), std::runtime_error);
    settings.certificate = web::Certificate{"chain.pem", "key.pem"};
    CHECK_THROWS_AS(web::check(settings), std::runtime_error);
    settings.hosts = {"desk.firm.example"};
    CHECK_NOTHROW(web::check(settings));
    CHECK(web::Names(settings, 443).address() == "https://desk.firm.example/");
    CHECK_FALSE(web::Names(settings, 443).is_host("127.0.0.1"));
    settings.address = "here";
    CHECK_THROWS_AS(web::check(settings), std::runtime_error);
}

TEST_CASE("secrets are long, differ, and are compared whole") {
    const std::string one = web::new_secret(), other = web::new_secret();
    CHECK(one.size() == 64);
    CHECK(one != other);
    CHECK(web::are_equal(one, one));
    CHECK_FALSE(web::are_equal(one, other));
    CHECK_FALSE(web::are_equal(one, one.substr(1)));
    CHECK(web::digest_of("abc") ==
          "ba7816bf8f01cfea414140de5dae2223b00361a396177a9cb410ff61f20015ad");
}

TEST_CASE("a place is given back, and one address does not take all") {
    const auto slots = std::make_shared<web::ConnectionSlots>(3, 2);
    auto first = slots->take("192.0.2.1");
    auto second = slots->take("192.0.2.1");
    CHECK(first.has_value());
    CHECK(second.has_value());
    CHECK_FALSE(slots->take("192.0.2.1").has_value());
    auto third = slots->take("192.0.2.2");
    CHECK(third.has_value());
    CHECK_FALSE(slots->take("192.0.2.3").has_value());
    first.reset();
    CHECK(slots->take("192.0.2.3").has_value());
}
