// Commands, attempts, the pace of a page, groups, the configuration.
#include <doctest/doctest.h>

#include "command.h"
#include "config.h"
#include "groups.h"
#include "logins.h"
#include "open_page.h"
#include "pace.h"
#include "unit.h"

#include "common/password.h"

#include <fstream>

#include <nlohmann/json.hpp>
#include <sys/stat.h>

using namespace desk;
using desk_tests::Folder;
using nlohmann::json;

namespace {

void put(const std::string &path, const std::string &text) {
    std::ofstream(path) << text;
    ::chmod(path.c_str(), 0600);
}

// The messages of the errors that the configuration has to name.
std::string fault_of(const std::string &path) {
    try {
        read_config(path);
    } catch (const std::runtime_error &fault) {
        return fault.what();
    }
    return {};
}

std::string times(int count, const std::string &word) {
    std::string text;
    for (int at = 0; at < count; ++at) {
        text += word;
    }
    return text;
}

void replace(std::string &text, const std::string &old, const std::string &fresh) {
    const std::size_t at = text.find(old);
    REQUIRE(at != std::string::npos);
    text.replace(at, old.size(), fresh);
}

} // namespace

TEST_CASE("a command is read whole, or not at all") {
    const auto ask = read_command(json::parse(
        R"({"do":"ask","number":1,"bond":"B","side":"sell","quantity":5,"seconds":60,"dealers":["D"]})"));
    REQUIRE(ask);
    const auto &own = std::get<command::Ask>(*ask);
    CHECK(own.side == Side::sell);
    CHECK(own.within == std::chrono::seconds(60));
    const auto quote = read_command(
        json::parse(R"({"do":"quote","request":"R1","price":25473,"seconds":0,"replaces":""})"));
    REQUIRE(quote);
    CHECK_FALSE(std::get<command::Quote>(*quote).valid_for);
    for (const char *text :
         {R"({})", R"({"do":"fly"})", R"({"do":"hit","request":"A"})", R"({"do":5})", R"([])",
          R"({"do":"ask","bond":"B","side":"up","quantity":5,"seconds":60,"dealers":[]})",
          R"({"do":"ask","bond":"B","side":"buy","quantity":-5,"seconds":60,"dealers":[]})",
          R"({"do":"ask","bond":"B","side":"buy","quantity":1.5,"seconds":60,"dealers":[]})",
          R"({"do":"ask","bond":"B","side":"buy","quantity":1e300,"seconds":60,"dealers":[]})",
          R"({"do":"ask","bond":"B","side":"buy","quantity":1,"seconds":60,"dealers":[7]})",
          R"({"do":"quote","request":"R1","price":"x","seconds":0,"replaces":""})"}) {
        CAPTURE(text);
        CHECK_FALSE(read_command(json::parse(text)));
    }
    CHECK_FALSE(read_command(json{{"do", "pass"}, {"request", std::string(65, 'x')}}));
    json group{{"do", "save group"}, {"name", times(24, "債")}, {"dealers", {"DLR1"}}};
    CHECK(read_command(group));
    group["name"] = std::string(97, 'x');
    CHECK_FALSE(read_command(group));
    CHECK_FALSE(read_command(
        json{{"do", "save group"}, {"name", "x"}, {"dealers", std::vector<std::string>(65, "D")}}));
}

TEST_CASE("a command is read up to each limit, and not beyond it") {
    const auto read = [](const json &command) { return read_command(json::parse(command.dump())); };
    const auto is_read = [&](const json &command) { return read(command).has_value(); };
    for (const std::size_t size : {64, 65}) {
        CHECK(is_read({{"do", "pass"}, {"request", std::string(size, 'x')}}) == (size == 64));
        json ask{{"do", "ask"}, {"bond", "B"}, {"side", "buy"}, {"quantity", 1}, {"seconds", 60}};
        ask["dealers"] = std::vector<std::string>(size, "D");
        CHECK(is_read(ask) == (size == 64));
    }
    for (const std::size_t size : {0, 1, 200, 201}) {
        const json line{{"bond", "B"}, {"side", "sell"}, {"quantity", 7}};
        json list{{"do", "ask list"}, {"name", "n"}, {"seconds", 60}, {"dealers", {"D"}}};
        list["lines"] = std::vector<json>(size, line);
        CHECK(is_read(list) == (size == 1 || size == 200));
    }
    json quote{{"do", "quote"}, {"request", "R"}, {"price", 1}, {"seconds", 0}, {"replaces", "Q"}};
    CHECK(std::get<command::Quote>(*read(quote)).replaces == "Q");
    quote["seconds"] = 90;
    CHECK(std::get<command::Quote>(*read(quote)).valid_for == std::chrono::seconds(90));
    quote["seconds"] = -1;
    CHECK_FALSE(is_read(quote));
    json limits{{"do", "set limits"}, {"login", "tess"}, {"quantity", 1'000'000'000'000'000}};
    limits["exposure"] = nullptr;
    const auto set = std::get<command::SetLimits>(*read(limits));
    CHECK(set.quantity == 1'000'000'000'000'000);
    CHECK_FALSE(set.exposure);
    limits["quantity"] = 1'000'000'000'000'001;
    CHECK_FALSE(is_read(limits));
    limits["quantity"] = nullptr;
    limits["exposure"] = 5;
    CHECK(std::get<command::SetLimits>(*read(limits)).exposure == 5);
    limits.erase("quantity");
    CHECK_FALSE(is_read(limits)); // none is said by no value
}

TEST_CASE("who fails too often waits a minute, and nobody else") {
    Attempts attempts(3, "");
    const Moment at = *moment_of("20260314-09:00:00.000");
    for (int count = 0; count < 3; ++count) {
        CHECK(attempts.may_try("one", at));
        attempts.begins("one", at);
    }
    CHECK_FALSE(attempts.may_try("one", at + std::chrono::seconds(59)));
    CHECK(attempts.may_try("other", at));
    CHECK(attempts.may_try("one", at + std::chrono::seconds(60)));
}

TEST_CASE("a try counts until it has succeeded") {
    Attempts attempts(1, "");
    const Moment at = *moment_of("20260314-09:00:00.000");
    attempts.begins("one", at);
    CHECK_FALSE(attempts.may_try("one", at));
    attempts.succeeded("one", at);
    CHECK(attempts.may_try("one", at));
    attempts.succeeded("one", at);
    attempts.succeeded("nobody", at);
    CHECK(attempts.may_try("nobody", at));
}

TEST_CASE("whoever fails often is remembered, however many others fail") {
    Attempts attempts(3, "");
    const Moment at = *moment_of("20260314-09:00:00.000");
    for (int count = 0; count < 3; ++count) {
        attempts.begins("one", at);
    }
    for (int other = 0; other < 5000; ++other) {
        attempts.begins("other " + std::to_string(other), at);
    }
    CHECK_FALSE(attempts.may_try("one", at));
    for (int count = 0; count < 3; ++count) {
        CHECK(attempts.may_try("one behind them", at));
        attempts.begins("one behind them", at);
    }
    CHECK_FALSE(attempts.may_try("one behind them", at));
}

TEST_CASE("no names that others try make room for one more guess of a login") {
    constexpr int others = 1100;
    Attempts attempts(3, "");
    const Moment at = *moment_of("20260314-09:00:00.000");
    for (int other = 0; other < others; ++other) {
        attempts.begins("other " + std::to_string(other), at);
    }
    // The first of all names, and the last: whether somebody has it is not told by that either.
    for (const std::string name : {"a", "~"}) {
        CAPTURE(name);
        for (int count = 0; count < 3; ++count) {
            CHECK(attempts.may_try(name, at));
            attempts.begins(name, at);
            attempts.begins("one more than " + name + std::to_string(count), at);
        }
        CHECK_FALSE(attempts.may_try(name, at));
    }
}

TEST_CASE("by no name or address can somebody take the tries of another") {
    constexpr int enough = 4'000'000; // of 65,536 places
    const Moment at = *moment_of("20260314-09:00:00.000");
    Attempts known(1, "a secret that was told");
    known.begins("victim", at);
    std::vector<std::string> sharing;
    for (int count = 0; count < enough && sharing.size() < 2; ++count) {
        std::string address = "2001:db8::" + std::to_string(count);
        if (!known.may_try(address, at)) {
            sharing.push_back(std::move(address));
        }
    }
    REQUIRE(sharing.size() == 2);
    Attempts attempts(1);
    attempts.begins("victim", at);
    // That both share its place by another secret as well is one case of four thousand millions.
    CHECK((attempts.may_try(sharing[0], at) || attempts.may_try(sharing[1], at)));
}

TEST_CASE("a pace has a burst, and then so many a second") {
    const Moment at = *moment_of("20260314-09:00:00.000");
    Pace pace(20, 60, at);
    int gone = 0;
    for (int count = 0; count < 200; ++count) {
        gone += pace.may_go(at);
    }
    CHECK(gone == 60);
    CHECK_FALSE(pace.may_go(at));
    gone = 0;
    for (int count = 0; count < 200; ++count) {
        gone += pace.may_go(at + std::chrono::seconds(1));
    }
    CHECK(gone == 20);
}

TEST_CASE("groups are each trader's own, have a limit, and outlive the process") {
    const Folder folder;
    const std::string path = folder.file("groups.json");
    {
        GroupStore groups(path);
        CHECK(groups.set("tess", "big", {"DLR1", "DLR2"}).empty());
        CHECK(groups.set("tom", "big", {"DLR3"}).empty());
        CHECK_FALSE(groups.set("tess", "", {"DLR1"}).empty());
        CHECK_FALSE(groups.set("tess", std::string(25, 'x'), {"DLR1"}).empty());
        CHECK_FALSE(groups.set("tess", times(25, "é"), {"DLR1"}).empty());
        CHECK(groups.set("tess", times(24, "é"), {"DLR1"}).empty());
        for (int count = 2; count < 16; ++count) {
            CHECK(groups.set("tess", std::to_string(count), {"DLR1"}).empty());
        }
        CHECK_FALSE(groups.set("tess", "more", {"DLR1"}).empty());
        CHECK(groups.set("tess", "5", {}).empty());
        CHECK(groups.writer()().empty());
    }
    const GroupStore groups(path);
    CHECK(groups.of("tess").size() == 15);
    CHECK(groups.of("tess").at("big") == std::vector<std::string>{"DLR1", "DLR2"});
    CHECK(groups.of("tom").size() == 1);
    CHECK(groups.of("nobody").empty());
}

TEST_CASE("a bond's band is read of version 3, and each fault of it is told") {
    const Folder folder;
    const std::string path = folder.file("market.toml");
    const auto market_with = [&](const std::string &version, const std::string &ends) {
        put(path, "version = " + version + "\n[[bond]]\nid = \"BONDA0000001\"\ngrid = 128\n" +
                      ends + "[[dealer]]\nname = \"DLR1\"\nexposure = 5\nquotes = 5\n");
        return read_market(path, "DLR1", Role::dealer).bonds.at(0);
    };
    const auto fault = [&](const std::string &ends) {
        try {
            market_with("3", ends);
        } catch (const std::runtime_error &why) {
            return std::string(why.what());
        }
        return std::string();
    };
    const Bond bond = market_with("3", "low = \"095.50\"\nhigh = \"105\"\n");
    CHECK(bond.band.low == Price{24448});
    CHECK(bond.band.high == Price{26880});
    CHECK(market_with("3", "").band.has_all());
    CHECK(market_with("2", "low = \"95.5\"\nhigh = 5\n").band.has_all());
    CHECK(market_with("3", "low = \"99\"\nhigh = \"99\"\n").band.high == Price{25344});
    CHECK_THROWS_AS(market_with("4", ""), std::runtime_error);
    struct Row {
        const char *ends;
        const char *told;
    };
    for (const Row &row :
         {Row{"low = \"95.5\"\n", "[[bond]] 1: 'high' is missing, or no text"},
          Row{"high = \"95.5\"\n", "[[bond]] 1: 'low' is missing, or no text"},
          Row{"low = 95\nhigh = \"105\"\n", "[[bond]] 1: 'low' is missing, or no text"},
          Row{"low = \"95-16\"\nhigh = \"105\"\n", "'low' has to be a price on the grid of 1/128"},
          Row{"low = \"95\"\nhigh = \"105.00390625\"\n",
              "'high' has to be a price on the grid of 1/128"},
          Row{"low = \"99.5\"\nhigh = \"99\"\n", "[[bond]] 1: 'low' is above 'high'"}}) {
        CAPTURE(row.ends);
        CHECK(fault(row.ends).find(row.told) != std::string::npos);
    }
}

TEST_CASE("each fault of the configuration names its key") {
    const Folder folder;
    put(folder.file("secret"), "fix-password\n");
    put(folder.file("market.toml"),
        "version = 2\n[[bond]]\nid = \"BONDA0000001\"\ngrid = 128\nname = \"Alder\"\n"
        "[[dealer]]\nname = \"DLR1\"\n[[investor]]\nname = \"INV1\"\n"
        "requests = 10\nopen = 2\nquantity = 5000000\n");
    const std::string good =
        "firm = \"INV1\"\nrole = \"investor\"\nmarket = \"market.toml\"\ndata = \"data\"\n"
        "[fix]\naddresses = [\"127.0.0.1:9878\"]\nusername = \"u\"\npassword_file = \"secret\"\n"
        "dictionaries = \"fix\"\n[page]\nport = 0\n"
        "[[trader]]\nlogin = \"tess\"\nname = \"T8\"\nmay = [\"ask\"]\nquantity = 100\npassword = "
        "\"" +
        gateway::new_hash("x") + "\"\n";
    const std::string path = folder.file("desk.toml");
    put(path, good);
    const Config config = read_config(path);
    CHECK(config.market.bonds[0].grid == 128);
    CHECK(config.market.limits.quantity == 5'000'000);
    CHECK(config.market.limits.requests == 10);
    CHECK(config.market.limits.open == 2);
    CHECK(config.fix.password == "fix-password");
    CHECK(config.traders[0].may_act);
    CHECK(config.traders[0].quantity == 100);
    CHECK_FALSE(config.fix.has_tls);
    CHECK(config.banner.empty());
    CHECK(config.data == folder.file("data"));
    CHECK(config.fix.dictionaries == folder.file("fix"));
    std::string more = good;
    replace(more, "[fix]",
            "banner = \"A trial.\"\n[fix]\nauthorities = \"ca.pem\"\ncertificate = "
            "\"own.pem\"\nkey = \"own.key\"");
    put(path, more);
    const Config full = read_config(path);
    CHECK(full.banner == "A trial.");
    CHECK(full.data == folder.file("data"));
    CHECK(full.fix.has_tls);
    CHECK(full.fix.tls.authorities == folder.file("ca.pem"));
    CHECK(full.fix.tls.certificate == folder.file("own.pem"));
    CHECK(full.fix.tls.key == folder.file("own.key"));
    struct Row {
        const char *old;
        const char *fresh;
        const char *named;
    };
    for (const Row &row :
         {Row{"role = \"investor\"", "role = \"x\"", "'role'"},
          Row{"firm = \"INV1\"\n", "", "'firm'"}, Row{"data = ", "dada = ", "no key 'dada'"},
          Row{"9878", "x", "no HOST:PORT"}, Row{"\"ask\"", "\"quote\"", "'may'"},
          Row{"port = 0", "port = 70000", "'port'"}, Row{"\"secret\"", "\"absent\"", "absent"},
          Row{"market.toml", "other.toml", "other.toml"}, Row{"INV1", "INV2", "INV2"},
          Row{"port = 0", "port = 0\nlisten = \"0.0.0.0\"", "certificate"},
          Row{"[[trader]]", "[[traitor]]", "traitor"},
          Row{"password = \"$", "password = \"", "no hash"}}) {
        CAPTURE(row.fresh);
        std::string text = good;
        replace(text, row.old, row.fresh);
        put(path, text);
        CHECK(fault_of(path).find(row.named) != std::string::npos);
    }
    put(path, good);
    ::chmod(folder.file("secret").c_str(), 0644);
    CHECK(fault_of(path).find("chmod 600") != std::string::npos);
}
