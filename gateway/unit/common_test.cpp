// What the gateway and the desk share: frames, moments, passwords' hashes, and the parts of a site.
#define DOCTEST_CONFIG_IMPLEMENT_WITH_MAIN
#include <doctest/doctest.h>

#include "check.h"
#include "common/day_end.h"
#include "common/frame.h"
#include "common/moment.h"
#include "common/password.h"
#include "common/price.h"
#include "common/web/cookies.h"
#include "common/web/secrets.h"
#include "common/web/server_settings.h"
#include "common/web/static_files.h"
#include "still_clock.h"

#include <chrono>
#include <fstream>
#include <memory>
#include <set>
#include <string>
#include <vector>

#include <openssl/crypto.h>
#include <openssl/rand.h>

namespace gateway::tests {

using namespace std::chrono_literals;

// ---------------------------------------------------------------- frames

TEST_CASE("a frame is its fields, each with its value") {
    const std::string frame = with_soh("8=FIXT.1.1|9=5|35=0|58=|10=163|");
    const auto fields = fields_of(frame);
    REQUIRE(fields);
    REQUIRE(fields->size() == 5);
    CHECK(fields->front().tag == "8");
    CHECK(fields->front().value == "FIXT.1.1");
    CHECK(value_of(*fields, "58") == "");
    CHECK_FALSE(value_of(*fields, "34"));
    CHECK_FALSE(fields_of(with_soh("8=FIXT.1.1|9=5")));
    CHECK_FALSE(fields_of(with_soh("8=FIXT.1.1|9|")));
    CHECK(fields_of("")->empty());
}

TEST_CASE("a value is that of its own tag") {
    const std::string frame = with_soh("8=FIXT.1.1|9=5|135=a|35=b|3=c|58=|10=1|");
    CHECK(value_in(frame, "35") == "b");
    CHECK(value_in(frame, "3") == "c");
    CHECK(value_in(frame, "58") == "");
    CHECK(value_in(frame, "49") == "");
    CHECK(value_in(with_soh("8=FIXT.1.1|35=b"), "35") == "b");
}

// FIX 4.4, volume 2: the bytes up to 10 modulo 256, in three digits.
TEST_CASE("a body is framed") {
    CHECK(with_bars(framed(with_soh("35=0|"))) == "8=FIXT.1.1|9=5|35=0|10=241|");
    CHECK(with_bars(framed("")) == "8=FIXT.1.1|9=0|10=022|");
}

TEST_CASE("a line of the log has a frame's bytes") {
    std::string digits = "x";
    append_hexadecimal(digits, "A\x01\xff");
    CHECK(digits == "x4101FF");
    CHECK(frame_of_line("hex DLR1 09:00:00.000 4101FF") == "A\x01\xff");
    CHECK(frame_of_line("hex DLR1 09:00:00.000 a09f") == "\xa0\x9f");
    CHECK(frame_of_line("hex DLR1 09:00:00.000 ") == "");
    CHECK(frame_of_line("clock 09:00:00.000 41") == "");
}

TEST_CASE("a number is digits alone") {
    CHECK(number_of("0") == 0U);
    CHECK(number_of("2147483647") == 2147483647U);
    for (const char *none : {"", "2147483648", "1 ", " 1", "-1", "+1", "1a"}) {
        CHECK_FALSE_MESSAGE(number_of(none), none);
    }
}

// ---------------------------------------------------------------- prices

TEST_CASE("a price is read in its 256ths") {
    const auto read = [](const char *text) {
        const auto price = price_of(text);
        return price ? price->in_256ths : -1;
    };
    CHECK(read("99.5") == 99 * 256 + 128);
    CHECK(read("99.50") == 99 * 256 + 128);
    CHECK(read("99.00390625") == 99 * 256 + 1);
    CHECK(read("99.015625") == 99 * 256 + 4);
    CHECK(read("99") == 99 * 256);
    CHECK(read("99.000000000000") == 99 * 256);
    CHECK(read("0.00390625") == 1);
    CHECK(read("999.99609375") == 255'999);
    for (const char *none : {"", ".", "99.51", "99.0039", "-99", "+99", "9 9", "99,5", "99.5.",
                             "1e2", "0", "1000", "9999999999999999"}) {
        CHECK_MESSAGE(read(none) == -1, none);
    }
    CHECK(text_of(Price{99 * 256 + 128}) == "99.5");
    CHECK(text_of(Price{99 * 256}) == "99");
    CHECK(text_of(Price{99 * 256 + 1}) == "99.00390625");
}

// ---------------------------------------------------------------- moments

TEST_CASE("a moment is read as it is written") {
    CHECK(text_of(Moment{0}) == "00:00:00.000");
    CHECK(text_of(Moment{Moment::last}) == "23:59:59.999");
    CHECK(text_of(Moment{((13 * 60 + 4) * 60 + 9) * 1000 + 57}) == "13:04:09.057");
    CHECK(text_of(ExactMoment{1'234'007}) == "00:00:01.234007");
    CHECK(moment_of("13:04:09.057") == Moment{((13 * 60 + 4) * 60 + 9) * 1000 + 57});
    CHECK(moment_of("23:59:59.999") == Moment{Moment::last});
    CHECK(exact_moment_of("00:00:01.234067") == ExactMoment{1'234'067});
    for (const char *none :
         {"24:00:00.000", "23:60:00.000", "23:59:60.000", "23:59:59.99", "23:59:59.9999",
          "23-59:59.999", "23:59-59.999", "23:59:59,999", "a3:59:59.999", "2a:59:59.999",
          "23:a9:59.999", "23:5a:59.999", "23:59:a9.999", "23:59:5a.999", "23:59:59.a99",
          "23:59:59.9a9", "23:59:59.99a", "23:59:59.99/", ""}) {
        CHECK_FALSE_MESSAGE(moment_of(none), none);
    }
    for (const char *none : {"00:00:01.23400", "00:00:01.2340070", "00:00:01.23400a",
                             "00:00:01.234a07", "00:00:01.2340a7", "00:00:01.23a007", ""}) {
        CHECK_FALSE_MESSAGE(exact_moment_of(none), none);
    }
}

// A day ends where the clock comes to the next one by itself, and not where somebody set it.
TEST_CASE("a day is over, or the clock was set") {
    using Day = DayClock::Day;
    const std::string date = "20261130";
    CHECK(day_by(date, date, 0ms) == Day::goes_on);
    CHECK(day_by(date, date, 2h) == Day::goes_on);
    CHECK(day_by(date, "20261201", 0ms) == Day::over);
    CHECK(day_by(date, "20261201", 60s) == Day::over);
    CHECK(day_by(date, "20261201", -60s) == Day::over);
    CHECK(day_by(date, "20261201", 60s + 1ms) == Day::set);
    CHECK(day_by(date, "20261201", -60s - 1ms) == Day::set);
    CHECK(day_by(date, "20261129", 0ms) == Day::set);
    CHECK(day_by(date, "20261201", std::nullopt) == Day::over);
    CHECK(day_by(date, "20261129", std::nullopt) == Day::set);
}

// By itself it goes half a minute beyond midnight, and is set by a whole day.
TEST_CASE("a machine's clock comes to the next day, or is set") {
    {
        StillClock machine;
        DayClock day("20250314");
        machine.move(15h - 30s);
        CHECK(day.day() == DayClock::Day::goes_on);
        machine.move(50s);
        CHECK(day.day() == DayClock::Day::over);
    }
    StillClock machine;
    DayClock day("20250314");
    machine.move(15h);
    CHECK(day.day() == DayClock::Day::set);
}

TEST_CASE("a day's clock never goes back, and stands at the day's end") {
    DayClock over("20000101");
    CHECK(over.day() == DayClock::Day::over);
    CHECK(over.exact_now() == ExactMoment{ExactMoment::last});
    DayClock ahead("21990101");
    CHECK(ahead.day() == DayClock::Day::set);
    CHECK(ahead.exact_now() == ExactMoment{0});
    const auto noon = std::chrono::sys_days(std::chrono::year(2199) / 1 / 1) + 12h;
    CHECK(ahead.moment_at(noon).cut() == Moment{12 * 60 * 60 * 1000});
    CHECK(ahead.moment_at(noon - 1h).cut() == Moment{11 * 60 * 60 * 1000});
    CHECK(ahead.now() == Moment{12 * 60 * 60 * 1000});
    CHECK(ahead.moment_at(noon + 24h).cut() == Moment{12 * 60 * 60 * 1000});
    ahead.not_before(ExactMoment::end_of(Moment{13 * 60 * 60 * 1000}));
    ahead.not_before(ExactMoment{0});
    CHECK(ahead.exact_now() == ExactMoment{std::int64_t{13 * 60 * 60} * 1'000'000 + 999});
    CHECK(ahead.until(Moment{13 * 60 * 60 * 1000 + 5}) == 5ms);
    CHECK(ahead.until(Moment{0}) == 0ms);
}

// ---------------------------------------------------------------- passwords

// crypt(5): $method$cost$salt$hash; of bcrypt and scrypt the salt follows on the cost.
TEST_CASE("what of a hash says how long it takes") {
    CHECK(setting_of("$y$j9T$salt$hash") == "$y$j9T$");
    CHECK(setting_of("$6$salt$hash") == "$6$");
    CHECK(setting_of("$6$rounds=9000$salt$hash") == "$6$rounds=9000$");
    CHECK(setting_of("$2b$12$saltandhash") == "$2b$12$");
    CHECK(setting_of("$7$CU..../....salt$hash") == "$7$CU..../....");
    CHECK(setting_of("$6$$hash") == "$6$");
    CHECK(setting_of("$x") == "$x");
    CHECK(setting_of("none") == "none");
}

TEST_CASE("a password has its own hash") {
    const std::string hash = new_hash("right");
    CHECK(is_hash(hash));
    CHECK(has_hash("right", hash));
    CHECK_FALSE(has_hash("wrong", hash));
    CHECK_FALSE(has_hash("right", hash.substr(0, hash.size() - 1)));
    CHECK_FALSE(has_hash(std::string("right\0", 6), hash));
    CHECK_FALSE(has_hash(std::string(600, 'a'), hash));
    CHECK_FALSE(has_hash("right", "*0"));
    CHECK(new_hash("right") != hash);
    for (const char *none : {"", "right", "ab", "$none$salt$hash"}) {
        CHECK_FALSE_MESSAGE(is_hash(none), none);
    }
}

// ---------------------------------------------------------------- the parts of a site

TEST_CASE("cookies") {
    const web::Cookies cookies = web::cookies_of("a=1;  b=2; c; a=3; d=");
    CHECK(cookies == web::Cookies{{"b", "2"}, {"d", ""}});
    CHECK(web::cookies_of("").empty());
    CHECK(web::set_cookie("a", "1", 60s, false) ==
          "a=1; Path=/; HttpOnly; SameSite=Strict; Max-Age=60");
    CHECK(web::set_cookie("a", "", 0s, true) ==
          "a=; Path=/; HttpOnly; SameSite=Strict; Max-Age=0; Secure");
}

// FIPS 180-4 has the digest of "abc".
TEST_CASE("secrets") {
    CHECK(web::digest_of("abc") ==
          "ba7816bf8f01cfea414140de5dae2223b00361a396177a9cb410ff61f20015ad");
    const std::string secret = web::new_secret();
    CHECK(secret.size() == 64);
    CHECK(secret.find_first_not_of("0123456789abcdef") == std::string::npos);
    CHECK(std::set<char>(secret.begin(), secret.end()).size() > 4);
    CHECK(web::new_secret() != secret);
    CHECK(web::are_equal("abc", "abc"));
    CHECK_FALSE(web::are_equal("abc", "abd"));
    CHECK_FALSE(web::are_equal("abc", "abcd"));
}

// A library that has no source of random bytes, for this thread, as long as it lives.
class NothingRandom {
  public:
    NothingRandom() {
        REQUIRE(RAND_set_DRBG_type(own_.get(), "NONE", nullptr, nullptr, nullptr) == 1);
        before_ = OSSL_LIB_CTX_set0_default(own_.get());
    }
    ~NothingRandom() { OSSL_LIB_CTX_set0_default(before_); }
    NothingRandom(const NothingRandom &) = delete;
    NothingRandom &operator=(const NothingRandom &) = delete;

  private:
    const std::unique_ptr<OSSL_LIB_CTX, void (*)(OSSL_LIB_CTX *)> own_{OSSL_LIB_CTX_new(),
                                                                       OSSL_LIB_CTX_free};
    OSSL_LIB_CTX *before_ = nullptr;
};

TEST_CASE("no secret is one that is known") {
    const NothingRandom none;
    CHECK_THROWS_WITH(web::new_secret(), "the system gives no random bytes");
}

TEST_CASE("a site's names, and the origins of its pages") {
    web::ServerSettings settings;
    const web::Names plain(settings, 8080);
    CHECK(plain.address() == "http://127.0.0.1:8080/");
    CHECK(plain.is_host("localhost:8080"));
    CHECK(plain.is_host("[::1]:8080"));
    CHECK_FALSE(plain.is_host("localhost"));
    CHECK(plain.is_own_origin("http://localhost:8080", "localhost:8080"));
    CHECK_FALSE(plain.is_own_origin("http://localhost:8080", "127.0.0.1:8080"));
    CHECK_FALSE(plain.is_own_origin("https://localhost:8080", "localhost:8080"));
    CHECK_FALSE(plain.is_own_origin("http://evil.example", "evil.example"));
    CHECK(web::Names(settings, 80).address() == "http://127.0.0.1/");
    settings.address = "192.0.2.1";
    settings.hosts = {"desk.example"};
    CHECK_THROWS(web::check(settings));
    settings.certificate = web::Certificate{"chain", "key"};
    CHECK_NOTHROW(web::check(settings));
    const web::Names known(settings, 443);
    CHECK(known.address() == "https://desk.example/");
    CHECK(known.is_own_origin("https://desk.example", "desk.example"));
    CHECK_FALSE(known.is_host("127.0.0.1"));
    settings.hosts.clear();
    CHECK_THROWS(web::check(settings));
    settings.address = "nowhere";
    CHECK_THROWS(web::check(settings));
}

web::Request get(const std::string &path, const std::string &known = "") {
    web::Request request;
    request.method = web::Method::get;
    request.path = path;
    request.if_none_match = known;
    return request;
}

TEST_CASE("a site's files") {
    web::StaticFiles files;
    files.add("index.html", "page");
    files.add("a.css", "style");
    const auto page = files.find(get("/"));
    REQUIRE(page);
    CHECK(page->status == 200);
    CHECK(page->body == "page");
    CHECK(page->content_type == "text/html; charset=utf-8");
    CHECK(files.find(get("/index.html"))->body == "page");
    CHECK(files.find(get("/a.css"))->content_type == "text/css; charset=utf-8");
    REQUIRE(page->headers.size() == 2);
    CHECK(page->headers[0].first == "ETag");
    CHECK(page->headers[0].second == "\"" + web::digest_of("page").substr(0, 32) + "\"");
    CHECK(page->headers[1] == std::pair<std::string, std::string>("Cache-Control", "no-cache"));
    const auto known = files.find(get("/", page->headers[0].second));
    CHECK(known->status == 304);
    CHECK(known->body.empty());
    for (const char *none : {"", "index.html", "/b.css", "/a.css/", "//a.css"}) {
        CHECK_FALSE_MESSAGE(files.find(get(none)), none);
    }
    web::Request post = get("/");
    post.method = web::Method::post;
    CHECK_FALSE(files.find(post));
    CHECK_THROWS_WITH(files.add("a.txt", ""), "a.txt: no page, style, script or picture");
}

TEST_CASE("a folder of a site's files") {
    const Scratch folder("site");
    for (const char *name : {"a.js", "b.svg", "c.txt"}) {
        std::ofstream(folder.path() / name) << "text of " << name;
    }
    std::filesystem::create_directory(folder.path() / "d.css");
    web::StaticFiles files;
    files.add_folder(folder.path().string());
    CHECK(files.find(get("/a.js"))->body == "text of a.js");
    CHECK(files.find(get("/a.js"))->content_type == "text/javascript; charset=utf-8");
    CHECK(files.find(get("/b.svg"))->content_type == "image/svg+xml");
    CHECK_FALSE(files.find(get("/c.txt")));
    CHECK_FALSE(files.find(get("/d.css")));
}

} // namespace gateway::tests
