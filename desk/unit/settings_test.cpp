// Tests what outlives a restart beside the journal: limits, references and stops of programs; and
// how the configuration names a program.
#include <doctest/doctest.h>

#include "checks.h"
#include "common/password.h"
#include "common/web/secrets.h"
#include "config.h"
#include "programs.h"
#include "query.h"
#include "references.h"
#include "trader_limits.h"
#include "unit.h"

#include <fstream>
#include <stdexcept>

#include <nlohmann/json.hpp>
#include <sys/stat.h>

using namespace desk;
using desk_tests::entry;
using desk_tests::Folder;
using nlohmann::json;
using Kind = Entry::Kind;

namespace {

const Moment at{std::chrono::milliseconds(1'773'482'400'000)};
const std::string token(32, 't');

void put(const std::string &path, const std::string &text) {
    std::ofstream(path) << text;
    ::chmod(path.c_str(), 0600);
}

Trader trader(const std::string &login) {
    Trader one{login, "", "T3", true, 100, {}};
    one.names = {"T3", "P1"};
    return one;
}

std::vector<Program> one_program() {
    Program program{web::digest_of(token), trader("tess")};
    program.acts_as.name = "P1";
    program.acts_as.is_program = true;
    return {program};
}

} // namespace

TEST_CASE("limits that the admin sets hold over a restart; a file of another form is a fault") {
    const Folder folder;
    const std::string path = folder.file("limits.json");
    {
        TraderLimits limits(path);
        CHECK(limits.applied(trader("tess")).quantity == 100);
        limits.set("tess", {std::nullopt, 7});
        CHECK(limits.writer()().empty());
    }
    const TraderLimits limits(path);
    CHECK_FALSE(limits.applied(trader("tess")).quantity);
    CHECK(limits.applied(trader("tess")).exposure == 7);
    CHECK(limits.applied(trader("tom")).quantity == 100);
    for (const char *text : {"", "x", "[]", R"({"tess": 5})", R"({"tess": {"quantity": "1"}})"}) {
        put(path, text);
        CHECK_THROWS_AS(TraderLimits{path}, std::runtime_error);
    }
}

TEST_CASE("references hold over a restart") {
    const Folder folder;
    const std::string path = folder.file("references.json");
    {
        References references(path);
        references.set("A", Price{25600}, "ada", at);
        references.set("B", Price{25600}, "ada", at);
        references.set("B", std::nullopt, "ada", at);
        references.set_distance(Price{64});
        CHECK(references.writer()().empty());
    }
    const References references(path);
    REQUIRE(references.of("A"));
    CHECK(references.of("A")->price == Price{25600});
    CHECK(references.of("A")->at == at);
    CHECK_FALSE(references.of("B"));
    CHECK(references.distance() == Price{64});
    CHECK(references.view() ==
          json{{"t", "references"},
               {"references",
                {{"A", {{"price", 25600}, {"at", milliseconds_of(at)}, {"by", "ada"}}}}},
               {"distance", 64}});
    CHECK(References(folder.file("none.json")).distance() == Price{256}); // a point
    put(path, R"({"distance": 64, "references": {"A": {"price": "x"}}})");
    CHECK_FALSE(References(path).of("A")); // a file of another form: they are set anew
}

TEST_CASE("a program is known by its token alone, and stays stopped over a restart") {
    const Folder folder;
    const std::string path = folder.file("programs.json");
    {
        Programs programs(one_program(), path);
        REQUIRE(programs.with_token(token));
        CHECK(programs.with_token(token)->acts_as.name == "P1");
        for (const std::string &other : {std::string(), std::string(31, 't'), token + "t",
                                         web::digest_of(token), std::string(32, 'u')}) {
            CHECK_FALSE(programs.with_token(other));
        }
        CHECK_FALSE(programs.is_stopped("P1"));
        programs.stop_all("tess", at);
        programs.stop("P1", "tom", at); // it is stopped already
        CHECK(programs.writer()().empty());
    }
    Programs programs(one_program(), path);
    CHECK(programs.is_stopped("P1"));
    CHECK(programs.view()["programs"][0]["by"] == "tess");
    programs.release("P1");
    CHECK(programs.writer()().empty());
    CHECK_FALSE(Programs(one_program(), path).is_stopped("P1"));
}

TEST_CASE("a page is told whether a program acts, and since when it may not") {
    const Folder folder;
    Programs programs(one_program(), folder.file("programs.json"));
    const auto told = [&](bool is_on, bool is_stopped, const char *by, const json &since) {
        const json one{{"name", "P1"},  {"trader", "tess"},
                       {"isOn", is_on}, {"isStopped", is_stopped},
                       {"by", by},      {"since", since}};
        CHECK(programs.view() == json{{"t", "programs"}, {"programs", json::array({one})}});
    };
    told(false, false, "", nullptr);
    programs.connected("P1", true);
    told(true, false, "", nullptr);
    programs.stop("P1", "ada", at);
    programs.stop_all("tom", at + std::chrono::seconds(1)); // it is stopped already
    told(true, true, "ada", milliseconds_of(at));
    programs.connected("P1", false);
    told(false, true, "ada", milliseconds_of(at));
    programs.release("P1");
    told(false, false, "", nullptr);
}

TEST_CASE("a program's price is held against reference, last price and other live quotes") {
    const Folder folder;
    References references(folder.file("references.json"));
    DealerDay day;
    int number = 0;
    const auto receive = [&](const std::string &text) {
        const std::string count = std::to_string(++number);
        day.apply(entry(Kind::received, number,
                        "34=" + count + "|1181=" + count + "|52=20260314-00:00:01.000|" + text));
    };
    const auto show = [&](const std::string &id, const std::string &side) {
        receive("35=R|131=" + id + "|48=A|54=" + side +
                "|38=2000000|126=20260314-00:05:00.000|448=INV1|");
    };
    const auto quote = [&](int own, const std::string &id, const std::string &price) {
        day.apply(entry(Kind::sent, number,
                        "34=" + std::to_string(own) + "|50=T3|35=S|131=" + id + "|117=q" + id +
                            "|133=" + price + "|132=" + price + "|"));
        receive("35=AI|131=" + id + "|117=q" + id + "|297=0|");
    };
    show("R1", "1");
    show("R2", "1");
    show("R3", "2");
    const auto asked = [&](const std::string &id, int points) {
        return why_ask(command::Quote{id, Price{points * 256}, {}, ""}, references, day);
    };
    CHECK(asked("R1", 100).starts_with("There is nothing"));
    references.set("B", Price{100 * 256}, "ada", at);
    CHECK(asked("R1", 100).starts_with("There is nothing"));
    references.set("A", Price{100 * 256}, "ada", at);
    CHECK(asked("R1", 99).empty());
    CHECK(asked("R1", 101).empty());
    CHECK(asked("R1", 102) == "The price is more than 1 from the reference 100.");
    CHECK(asked("R1", 98) == "The price is more than 1 from the reference 100.");
    references.set("A", std::nullopt, "ada", at);
    quote(2, "R1", "100");
    CHECK(asked("R2", 101).empty());
    CHECK(asked("R2", 102) == "The price is more than 1 from the firm's last one, 100.");
    CHECK(asked("R3", 102) == "The price is more than 1 from the firm's live quote 100.");
    show("R4", "1");
    quote(3, "R4", "95");
    day.apply(entry(Kind::sent, number, "34=4|50=T3|35=Z|131=R4|117=qR4|298=5|"));
    receive("35=AI|131=R4|117=qR4|297=17|");
    CHECK(asked("R2", 101).empty()); // a slip that was withdrawn is no yardstick
    CHECK(asked("R2", 102) == "The price is more than 1 from the firm's last one, 100.");
    show("R5", "1");
    quote(5, "R5", "100.5");
    CHECK(asked("R1", 102) == "The price is more than 1 from the firm's last one, 100.5.");
    references.set_distance(Price{3 * 256});
    CHECK(asked("R2", 103).empty());
    CHECK(asked("R3", 104) == "The price is more than 3 from the firm's live quote 100.");
}

TEST_CASE("a trader and its programs share one exposure") {
    DealerDay day;
    day.apply(entry(Kind::received, 1,
                    "34=1|1181=1|52=20260314-00:00:01.000|35=R|131=R1|48=A|54=1|38=2000000|"
                    "126=20260314-00:05:00.000|448=INV1|"));
    day.apply(entry(Kind::sent, 2, "34=2|50=P1|35=S|131=R1|117=q1|133=99|"));
    CHECK(exposure_of(trader("tess"), day) == 2'000'000);
    CHECK(day.exposure_of("T3") == 0);
}

TEST_CASE("what a page asks to be told is read with limits") {
    for (const char *text :
         {R"({"do": "price", "bond": "A", "quantity": 1, "price": 25600})",
          R"({"do": "price", "bond": "A", "quantity": 1, "yield": 4})", R"({"do": "find"})",
          R"({"do": "day", "date": "20260105", "find": "2m"})"}) {
        CAPTURE(text);
        CHECK(read_query(json::parse(text)));
    }
    for (const char *text :
         {R"({"do": "price", "bond": "A", "quantity": 1})",
          R"({"do": "price", "bond": "A", "quantity": 1, "price": 1, "yield": 4})",
          R"({"do": "price", "bond": "A", "quantity": -1, "price": 1})",
          R"({"do": "price", "bond": "A", "quantity": 1, "yield": "4"})",
          R"({"do": "price", "bond": "A", "quantity": 1, "yield": 1e9})",
          R"({"do": "price", "bond": 5, "quantity": 1, "yield": 4})", R"({"do": "day"})",
          R"({"do": "day", "date": 20260105})", R"({"do": "find", "find": ["a"]})"}) {
        CAPTURE(text);
        CHECK_FALSE(read_query(json::parse(text)));
    }
    CHECK_FALSE(read_query(json{{"do", "find"}, {"find", std::string(257, 'x')}}));
    CHECK(read_query(json{{"do", "find"}, {"find", std::string(256, 'x')}}));
    for (const auto &[yield, is_read] :
         {std::pair(-20.0, true), {200.0, true}, {-20.1, false}, {200.1, false}}) {
        const json asked{{"do", "price"}, {"bond", "A"}, {"quantity", 1}, {"yield", yield}};
        CHECK(read_query(json::parse(asked.dump())).has_value() == is_read);
    }
}

TEST_CASE("a program's row names a trader, a name of its own and a secret file") {
    const Folder folder;
    put(folder.file("secret"), "fix-password\n");
    put(folder.file("market.toml"), "version = 2\n[[dealer]]\nname = \"D\"\nexposure = 5\n"
                                    "quotes = 5\n");
    const std::string good =
        "firm = \"D\"\nrole = \"dealer\"\nmarket = \"market.toml\"\ndata = \"data\"\n"
        "[fix]\naddresses = [\"127.0.0.1:9878\"]\nusername = \"u\"\npassword_file = \"secret\"\n"
        "dictionaries = \"fix\"\n[page]\nport = 0\n[[trader]]\nlogin = \"tess\"\nname = \"T3\"\n"
        "may = [\"quote\", \"admin\"]\npassword = \"" +
        gateway::new_hash("x") +
        "\"\n[[program]]\nname = \"P1\"\nlogin = \"tess\"\ntoken_file = \"token\"\n";
    const auto fault_of = [&](const std::string &old, const std::string &fresh) -> std::string {
        std::string text = good;
        text.replace(text.rfind(old), old.size(), fresh);
        put(folder.file("desk.toml"), text);
        try {
            read_config(folder.file("desk.toml"));
        } catch (const std::runtime_error &fault) {
            return fault.what();
        }
        return {};
    };
    put(folder.file("token"), token + "\n");
    CHECK(fault_of("P1", "P1").empty());
    const Config config = read_config(folder.file("desk.toml"));
    REQUIRE(config.programs.size() == 1);
    CHECK(config.programs[0].acts_as.name == "P1");
    CHECK(config.programs[0].acts_as.login == "tess");
    CHECK(config.programs[0].acts_as.is_admin);
    CHECK(config.programs[0].token_digest == web::digest_of(token));
    CHECK(config.traders[0].names == std::vector<std::string>{"T3", "P1"});
    CHECK(config.programs[0].acts_as.names == config.traders[0].names); // whose limits it shares
    CHECK(config.programs[0].acts_as.is_program);
    CHECK_FALSE(config.traders[0].is_program);
    CHECK(fault_of("\"P1\"", "\"T3\"").find("'name' is 'T3', which another") != std::string::npos);
    CHECK(fault_of("\"tess\"", "\"tom\"").find("'login' is 'tom'") != std::string::npos);
    CHECK(fault_of("\"token\"", "\"absent\"").find("absent can't be read") != std::string::npos);
    CHECK(fault_of("token_file", "tokens").find("no key 'tokens'") != std::string::npos);
    const std::string second =
        "[[program]]\nname = \"P2\"\nlogin = \"tess\"\ntoken_file = \"token\"\n";
    CHECK(fault_of("[[program]]", second + "[[program]]").find("token of another") !=
          std::string::npos);
    put(folder.file("token"), "short\n");
    CHECK(fault_of("P1", "P1").find("'token_file'") != std::string::npos);
    put(folder.file("token"), std::string(20, 't') + " " + std::string(20, 't') + "\n");
    CHECK(fault_of("P1", "P1").find("'token_file'") != std::string::npos);
    put(folder.file("token"), token + "\n");
    ::chmod(folder.file("token").c_str(), 0644);
    CHECK(fault_of("P1", "P1").find("chmod 600") != std::string::npos);
}
