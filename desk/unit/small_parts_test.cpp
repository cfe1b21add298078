// Events, the folder's lock, logins that outlive a restart, the words of refusals, and what files
// of settings may have.
#include <doctest/doctest.h>

#include "common/password.h"
#include "common/web/secrets.h"
#include "connection_words.h"
#include "dealer_day.h"
#include "fix_config.h"
#include "folder_lock.h"
#include "house.h"
#include "investor_day.h"
#include "words.h"

#include <fstream>
#include <stdexcept>

#include <nlohmann/json.hpp>
#include <sys/stat.h>

using namespace desk;
using namespace desk_tests;
using nlohmann::json;

namespace {

void put(const std::string &path, const std::string &text) {
    std::ofstream(path) << text;
    ::chmod(path.c_str(), 0600);
}

std::string text_in(const std::string &path) {
    std::ifstream file(path);
    return {std::istreambuf_iterator<char>(file), {}};
}

// What a call throws, in words.
template <typename Call> std::string fault_of(const Call &call) {
    try {
        call();
    } catch (const std::runtime_error &fault) {
        return fault.what();
    }
    return {};
}

Message answer(const std::string &fields) {
    return Message(fix("35=AI|" + fields));
}

} // namespace

TEST_CASE("an event is one line of limited length, whatever is told") {
    const Folder folder;
    const std::string path = folder.file("told");
    Events events("DLR1");
    {
        const desk_tests::Told told(path);
        events.tell("one\ntwo\x1b three\x7f \x01 four \xc3\xa9 \x9b \xc2\x9b five");
        events.tell(std::string(399, 'x') + "yz");
    }
    const std::string text = text_in(path);
    REQUIRE(std::count(text.begin(), text.end(), '\n') == 2);
    const std::string first = text.substr(0, text.find('\n'));
    CHECK(moment_of(first.substr(0, 21)));
    CHECK(first.substr(21) == " DLR1 one?two? three? | four \xc3\xa9 ? ?? five");
    CHECK(text.substr(first.size() + 1).substr(21) == " DLR1 " + std::string(399, 'x') + "y\n");
}

TEST_CASE("one desk alone has a folder, which it makes") {
    const Folder folder;
    const std::string path = folder.file("data/of/desk");
    {
        const FolderLock lock(path);
        struct stat facts {};
        REQUIRE(::stat(path.c_str(), &facts) == 0);
        CHECK((facts.st_mode & 0777) == 0700);
        CHECK(fault_of([&] { FolderLock second(path); }) ==
              path + ": another desk has this folder");
    }
    CHECK(fault_of([&] { FolderLock second(path); }).empty());
    put(folder.file("file"), "");
    CHECK(fault_of([&] { FolderLock second(folder.file("file")); }).find("can't be opened: ") !=
          std::string::npos);
}

TEST_CASE("why a session is down is said as far as a trader needs it") {
    struct Row {
        const char *event;
        const char *words;
    };
    for (const Row &row :
         {Row{"Logged out by the venue: the day is over",
              "Logged out by the venue: the day is over"},
          Row{"Connection failed: Connection refused", "nothing answers at its address"},
          Row{"Connection refused", "nothing answers at its address"},
          Row{"Connection failed", "nothing answers at its address"},
          Row{"Timed out waiting for heartbeat", "it fell silent"},
          Row{"Timed out waiting for logon response", "it fell silent"},
          Row{"No heartbeat", "it fell silent"},
          Row{"Socket Error: Connection reset by peer.", "it closed the connection"},
          Row{"Connection closed", "it closed the connection"}, Row{"Created session", ""},
          Row{"It was Logged out by the venue", ""}}) {
        CAPTURE(row.event);
        CHECK(connection_words(row.event) == row.words);
    }
}

TEST_CASE("a secret is the first line of a file that is its owner's alone") {
    const Folder folder;
    const std::string path = folder.file("secret");
    CHECK(fault_of([&] { secret_of(path); }) == path + " can't be read");
    put(path, "one\ntwo\n");
    CHECK(secret_of(path) == "one");
    for (const mode_t mode : {0640, 0620, 0610, 0604, 0602, 0601}) {
        ::chmod(path.c_str(), mode);
        CHECK(fault_of([&] { secret_of(path); }) ==
              path + " may be read by others than its owner: chmod 600");
    }
    put(path, "\ntwo\n");
    CHECK(fault_of([&] { secret_of(path); }) == path + " has no secret in its first line");
    put(path, "");
    CHECK(fault_of([&] { secret_of(path); }) == path + " has no secret in its first line");
}

TEST_CASE("settings of a desk: each key, its bounds and its faults") {
    const Folder folder;
    put(folder.file("secret"), "fix-password\n");
    put(folder.file("market.toml"),
        "version = 2\n[[bond]]\nid = \"B1\"\n[[dealer]]\nname = \"D\"\nexposure = 5\nquotes = 6\n"
        "[[dealer]]\nname = \"E\"\nexposure = 7\nquotes = 8\n");
    const std::string hash = gateway::new_hash("x");
    const std::string good =
        "firm = \"D\"\nrole = \"dealer\"\nmarket = \"market.toml\"\ndata = \"data\"\n"
        "[fix]\naddresses = [\"one:9878\", \"two:1\"]\nusername = \"u\"\n"
        "password_file = \"secret\"\ndictionaries = \"fix\"\n[page]\nport = 0\n"
        "[[trader]]\nlogin = \"tess\"\nname = \"T3\"\nmay = [\"quote\", \"admin\"]\npassword = \"" +
        hash + "\"\n[[trader]]\nlogin = \"lou\"\nname = \"T4\"\nmay = [\"look\"]\npassword = \"" +
        hash + "\"\n";
    const auto config_with = [&](const std::string &old, const std::string &fresh) {
        std::string text = good;
        const std::size_t at = text.find(old);
        REQUIRE(at != std::string::npos);
        text.replace(at, old.size(), fresh);
        put(folder.file("desk.toml"), text);
        return read_config(folder.file("desk.toml"));
    };
    const auto fault = [&](const std::string &old, const std::string &fresh) {
        return fault_of([&] { config_with(old, fresh); });
    };
    const Config config = config_with("firm", "firm");
    CHECK(config.fix.addresses.size() == 2);
    CHECK(config.fix.addresses[0].host == "one");
    CHECK(config.fix.addresses[0].port == 9878);
    CHECK(config.fix.addresses[1].port == 1);
    CHECK(config.fix.firm == "D");
    CHECK(config.fix.username == "u");
    CHECK(config.deliver_within == std::chrono::seconds(5));
    CHECK(config.market.limits.exposure == 5);
    CHECK(config.market.limits.quotes == 6);
    CHECK(config.market.dealers == std::vector<std::string>{"D", "E"});
    CHECK(config.market.bonds[0].name == "B1");
    CHECK(config.market.bonds[0].grid == 256);
    CHECK_FALSE(config.lock_after);
    CHECK_FALSE(config.pages);
    CHECK(config.traders[0].may_act);
    CHECK(config.traders[0].is_admin);
    CHECK_FALSE(config.traders[0].exposure);
    CHECK_FALSE(config.traders[1].may_act);
    CHECK_FALSE(config.traders[1].is_admin);
    CHECK(config.traders[1].names == std::vector<std::string>{"T4"});
    CHECK(config_with("port = 0", "port = 65535\nlock_after_minutes = 1").lock_after ==
          std::chrono::minutes(1));
    CHECK(config_with("port = 0", "port = 1\nlock_after_minutes = 720").server.port == 1);
    CHECK(config_with("port = 0", "port = 1\nhosts = [\"desk.example\"]").server.hosts ==
          std::vector<std::string>{"desk.example"});
    CHECK(config_with("dictionaries", "deliver_within_seconds = 60\ndictionaries").deliver_within ==
          std::chrono::seconds(60));
    CHECK(config_with("dictionaries", "deliver_within_seconds = 1\ndictionaries").deliver_within ==
          std::chrono::seconds(1));
    CHECK(config_with("data = ", "pages = \"web\"\ndata = ").pages == folder.file("web"));
    CHECK(config_with("may = ", "exposure = 1\nquantity = 1000000000000000\nmay = ")
              .traders[0]
              .quantity == 1'000'000'000'000'000);
    CHECK(config_with("may = ", "exposure = 1\nquantity = 2\nmay = ").traders[0].exposure == 1);
    struct Row {
        const char *old;
        const char *fresh;
        const char *named;
    };
    for (const Row &row :
         {Row{"\"one:9878\", \"two:1\"", "", "'addresses' names no address of the venue"},
          Row{"one:9878", "one", "'one' is no HOST:PORT"},
          Row{"one:9878", ":9878", "':9878' is no HOST:PORT"},
          Row{"one:9878", "one:", "'one:' is no HOST:PORT"},
          Row{"one:9878", "one:65536", "'one:65536' is no HOST:PORT"},
          Row{"one:9878", "one:123456", "is no HOST:PORT"},
          Row{"one:9878", "one:009878", "'one:009878' is no HOST:PORT"},
          Row{"one:9878", "one:-1", "is no HOST:PORT"},
          Row{"[\"one:9878\", \"two:1\"]", "5", "'addresses' is missing, or no list of texts"},
          Row{"\"two:1\"", "5", "'addresses' has something that is no text"},
          Row{"username = \"u\"", "username = \"\"", "'username' is missing, or no text"},
          Row{"dictionaries", "deliver_within_seconds = 61\ndictionaries", "from 1 to 60"},
          Row{"dictionaries", "deliver_within_seconds = 0\ndictionaries", "from 1 to 60"},
          Row{"port = 0", "port = 65536", "'port' has to be a number from 0 to 65535"},
          Row{"port = 0", "port = -1", "'port'"},
          Row{"port = 0", "port = 0.0", "'port'"},
          Row{"port = 0", "port = 0\nlock_after_minutes = 721", "from 1 to 720"},
          Row{"port = 0", "port = 0\nlock_after_minutes = 0", "from 1 to 720"},
          Row{"[page]\nport = 0\n", "", "there is no part [page]"},
          Row{"role = \"dealer\"", "role = \"both\"",
              "'role' has to be \"dealer\" or \"investor\""},
          Row{"\"quote\"", "\"ask\"",
              "'may' has 'ask'; a trader of this firm may 'look', 'quote' and 'admin'"},
          Row{"may = ", "exposure = 0\nmay = ", "'exposure'"},
          Row{"may = ", "quantity = 1000000000000001\nmay = ", "'quantity'"},
          Row{"\"lou\"", "\"tess\"", "two traders have the login 'tess'"},
          Row{"firm = \"D\"", "firm = \"F\"", "there is no [[dealer]] with the name 'F'"}}) {
        CAPTURE(row.fresh);
        const std::string told = fault(row.old, row.fresh);
        CAPTURE(told);
        CHECK(told.find(row.named) != std::string::npos);
    }
    CHECK(fault(good.substr(good.find("[[trader]]")), "").find("nobody could log in") !=
          std::string::npos);
    CHECK(fault("[[trader]]", "trader = 5\n[[traders]]").find("no key 'traders'") !=
          std::string::npos);
    put(folder.file("market.toml"),
        "version = 1\n[[bond]]\nid = \"B1\"\nname = \"One\"\ngrid = 32\n[[dealer]]\nname = \"D\"\n"
        "exposure = 1000000000000000\nquotes = 4096\n");
    CHECK(config_with("firm", "firm").market.bonds[0].grid == 256);
    CHECK(config_with("firm", "firm").market.bonds[0].name == "One");
    for (const char *text :
         {"version = 2\n[[bond]]\nid = \"B1\"\ngrid = 96\n[[dealer]]\nname = \"D\"\nexposure = "
          "5\nquotes = 5\n",
          "version = 2\n[[dealer]]\nname = \"D\"\nexposure = 0\nquotes = 5\n",
          "version = 2\n[[dealer]]\nname = \"D\"\nexposure = 5\nquotes = 4097\n",
          "version = 2\n[[dealer]]\nname = \"D\"\nexposure = 5\nquotes = 0\n",
          "version = 0\n[[dealer]]\nname = \"D\"\nexposure = 5\nquotes = 5\n",
          "version = 2\nbond = [5]\n[[dealer]]\nname = \"D\"\nexposure = 5\nquotes = 5\n",
          "version = 2\n[[dealer]\n"}) {
        CAPTURE(text);
        put(folder.file("market.toml"), text);
        CHECK(fault("firm", "firm").find("market.toml: ") != std::string::npos);
    }
}

TEST_CASE("a login outlives a restart, until its password is another one or its time is over") {
    House house(Role::dealer);
    const std::string path = house.folder.file("data/sessions.json");
    const Moment begun = now();
    const auto [cookie, token] = house.log_in("tess");
    const auto [other, others_token] = house.log_in("tom");
    struct stat facts {};
    REQUIRE(::stat(path.c_str(), &facts) == 0);
    CHECK((facts.st_mode & 0777) == 0600);
    CHECK(text_in(path).find(cookie) == std::string::npos);
    CHECK(text_in(path).find(token) == std::string::npos);
    const auto logins_with = [&](const std::vector<Trader> &traders) {
        return std::make_unique<Logins>(house.io, traders, path, std::nullopt);
    };
    const auto again = logins_with(house.config.traders);
    REQUIRE(again->trader_of(cookie));
    CHECK(again->trader_of(cookie)->login == "tess");
    CHECK(again->trader_of(other)->login == "tom");
    CHECK(again->has_token(cookie, token));
    CHECK_FALSE(again->has_token(cookie, others_token));
    CHECK_FALSE(again->has_token("none", token));
    CHECK(again->has("tess"));
    CHECK_FALSE(again->has("nobody"));
    std::vector<Trader> changed = house.config.traders;
    changed[0].password = "$1$other$SsESOLg5wnV47Kvq8nOCf.";
    changed.erase(changed.begin() + 1);
    const auto anew = logins_with(changed);
    CHECK_FALSE(anew->trader_of(cookie));
    CHECK_FALSE(anew->trader_of(other));
    json text = json::parse(text_in(path));
    CHECK(text.size() == 2);
    for (auto &[key, one] : text.items()) {
        CHECK(one.at("until") >= milliseconds_of(begun + std::chrono::hours(12)));
        CHECK(one.at("until") <= milliseconds_of(now() + std::chrono::hours(12)));
        one["until"] = milliseconds_of(now());
    }
    put(path, text.dump());
    CHECK_FALSE(logins_with(house.config.traders)->trader_of(cookie));
    put(path, R"({"a": 5, "b": {"token": "x"}})");
    CHECK_FALSE(logins_with(house.config.traders)->trader_of(cookie));
}

TEST_CASE("of a login sixteen sessions go on, and the oldest ends for one more") {
    House house(Role::dealer);
    const auto log_in = [&](const std::string &login) {
        const Moment before = now();
        while (now() == before) { // so that no two are of one age
        }
        return house.log_in(login).first;
    };
    const std::string other = log_in("tom");
    std::vector<std::string> cookies;
    for (int count = 0; count < 16; ++count) {
        cookies.push_back(log_in("tess"));
    }
    CHECK(house.logins->trader_of(cookies[0]));
    for (int count = 0; count < 4; ++count) {
        cookies.push_back(log_in("tess"));
    }
    for (std::size_t at = 0; at < cookies.size(); ++at) {
        CHECK((house.logins->trader_of(cookies[at]) != nullptr) == (at >= 4));
    }
    CHECK(house.logins->trader_of(other));
}

TEST_CASE("a refusal is told in the venue's words, or by what its code can mean") {
    CHECK(quote_refusal(answer("300=1|58=own words|")) == "own words");
    CHECK(quote_refusal(answer("300=1|")) == "another bond than the request's");
    CHECK(quote_refusal(answer("300=3|")).rfind("a limit of your firm: its exposure", 0) == 0);
    CHECK(quote_refusal(answer("300=4|")).rfind("too late: ", 0) == 0);
    CHECK(quote_refusal(answer("300=6|")) == "the quote's name was used before");
    CHECK(quote_refusal(answer("300=8|")).find("band") != std::string::npos);
    CHECK(quote_refusal(answer("300=99|")).rfind("you declined the request", 0) == 0);
    CHECK(request_refusal(answer("658=1|")) == "the venue does not have this bond");
    CHECK(request_refusal(answer("658=3|")).rfind("a limit of your firm: the quantity", 0) == 0);
    CHECK(request_refusal(answer("658=4|")) == "the deadline had passed when the request came");
    CHECK(request_refusal(answer("658=99|")).rfind("the list of dealers", 0) == 0);
    CHECK(cancel_refusal(answer("297=9|")) == "the venue has no such quote of yours");
    CHECK(cancel_refusal(answer("297=5|300=4|")).rfind("too late: ", 0) == 0);
    CHECK(cancel_refusal(answer("297=5|300=99|")) == "the quote was withdrawn or replaced before");
    CHECK(decline_refusal(answer("300=4|")) == "too late: the request has ended");
    CHECK(decline_refusal(answer("300=99|")).rfind("a quote of yours is live", 0) == 0);
    CHECK(response_refusal(answer("58=NotOpen|")).rfind("the request has ended", 0) == 0);
    CHECK(response_refusal(answer("58=Deadline|")) == "the request's deadline has come");
    CHECK(response_refusal(answer("58=Gone|")) == "the quote was replaced or withdrawn");
    CHECK(response_refusal(answer("58=Withdrawn|")) == "the dealer withdrew the quote first");
    CHECK(response_refusal(answer("58=Expired|")) == "the quote's validity is over");
    CHECK(response_refusal(answer("58=Another|")) == "Another");
    CHECK(response_refusal(answer("297=9|")) == "the venue does not know it");
    CHECK(response_refusal(answer("297=5|")) == "the venue gives no reason");
    CHECK(not_taken_words(answer("58=words|")) == "words");
    CHECK(not_taken_words(answer("")).find("BusinessMessageReject") != std::string::npos);
    CHECK(reject_words(answer("371=38|373=6|")) ==
          "the quantity is malformed (Reject, 371=38, 373=6)");
    CHECK(reject_words(answer("371=9999|373=77|")) ==
          "field 9999 is at fault (Reject, 371=9999, 373=77)");
    for (const auto &[field, name] :
         std::vector<std::pair<int, std::string>>{{34, "sequence number"},
                                                  {35, "type"},
                                                  {48, "bond"},
                                                  {50, "trader"},
                                                  {52, "sending time"},
                                                  {54, "side"},
                                                  {62, "validity"},
                                                  {117, "quote"},
                                                  {126, "deadline"},
                                                  {131, "request"},
                                                  {132, "bid"},
                                                  {133, "offer"},
                                                  {448, "dealer"},
                                                  {453, "dealers"},
                                                  {693, "response"}}) {
        const std::string number = std::to_string(field);
        CHECK(reject_words(answer("371=" + number + "|373=1|")) ==
              "the " + name + " is missing (Reject, 371=" + number + ", 373=1)");
    }
    for (const auto &[reason, words] :
         std::vector<std::pair<int, std::string>>{{4, "is empty"},
                                                  {5, "is not allowed"},
                                                  {9, "is not this firm's"},
                                                  {10, "is too far from the venue's clock"},
                                                  {11, "is not this firm's to send"},
                                                  {13, "is given twice"},
                                                  {16, "is wrongly counted"}}) {
        const std::string number = std::to_string(reason);
        CHECK(reject_words(answer("371=38|373=" + number + "|")) ==
              "the quantity " + words + " (Reject, 371=38, 373=" + number + ")");
    }
}

TEST_CASE("a history has 256 lines, and the oldest goes") {
    Request request;
    for (int count = 0; count < 300; ++count) {
        request.note(now(), std::to_string(count));
    }
    REQUIRE(request.history.size() == 256);
    CHECK(request.history.front().text == "44");
    CHECK(request.history.back().text == "299");
}
