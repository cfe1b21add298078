// What an operator's request is answered where no day is open: its words are looked at first, and
// an answer is the same for people and for programs.
#define DOCTEST_CONFIG_IMPLEMENT_WITH_MAIN
#include <doctest/doctest.h>

#include "base/digest.h"
#include "check.h"
#include "common/descriptor.h"
#include "operator/admin_answer.h"
#include "operator/admin_command.h"
#include "operator/admin_peer.h"
#include "operator/admin_report.h"
#include "operator/admin_words.h"

#include <array>
#include <cstdlib>
#include <filesystem>
#include <fstream>
#include <optional>
#include <sstream>
#include <stdexcept>
#include <string>
#include <vector>

#include <fmt/format.h>
#include <fmt/ranges.h>
#include <grp.h>
#include <sys/socket.h>
#include <unistd.h>

namespace gateway::tests {

using Words = std::vector<std::string>;

// A gateway that waits for its next day.
class Waiting : public AdminScene {
  public:
    HeldDay hold_day() override { return {}; }
    std::string waits_for() override { return "20261201 opens at 07:00"; }
    std::string accept_loss(const std::vector<Act> &acts) override {
        std::string said = "accepted";
        for (const Act &act : acts) {
            said += ", " + act.who + " " + act.words + " " + act.because;
        }
        return said;
    }
    NextDay next_day() override { return next; }
    Beside beside() override { return around; }

    NextDay next;
    Beside around;
};

struct Operator {
    Waiting scene;

    std::string asks(const Words &words, bool wants_json = false) {
        const std::string line = line_of({wants_json, words});
        return answer_to(scene, "ann(7)", line.substr(0, line.size() - 1));
    }
    std::string fault_of(const Words &words) {
        const std::string answer = asks(words);
        check(answer.starts_with("error\n"), answer);
        return answer.substr(6, answer.size() - 7);
    }
};

TEST_CASE("a request has the words of its command") {
    Operator ann;
    const std::vector<std::pair<Words, std::string>> wrong = {
        {{"status", "now"}, "status"},
        {{"firms", "now"}, "firms"},
        {{"firm"}, "firm FIRM"},
        {{"firm", "A", "B"}, "firm FIRM"},
        {{"hand-out"}, "hand-out FIRM [--venue NAME]"},
        {{"hand-out", "A", "B"}, "hand-out FIRM [--venue NAME]"},
        {{"next-day", "now"}, "next-day"},
        {{"end-day", "now"}, "end-day [--now] [--because TEXT]"},
        {{"end-day", "--now", "A"}, "end-day [--now] [--because TEXT]"},
        {{"admit", "A"}, "admit FIRM REPORT [--because TEXT]"},
        {{"admit", "A", "B", "C"}, "admit FIRM REPORT [--because TEXT]"},
        {{"suspend"}, "suspend FIRM --because TEXT"},
        {{"suspend", "A", "B"}, "suspend FIRM --because TEXT"},
        {{"resume", "--bond", "A", "B"}, "resume [FIRM | --bond ID] [--because TEXT]"},
        {{"resume", "A", "B"}, "resume [FIRM | --bond ID] [--because TEXT]"},
        {{"halt", "A"}, "halt [--bond ID] --because TEXT"},
        {{"halt", "--trader", "A"}, "halt [--bond ID] --because TEXT"},
        {{"cancel"}, "cancel FIRM [--trader TRADER] --because TEXT"},
        {{"cancel", "A", "T"}, "cancel FIRM [--trader TRADER] --because TEXT"},
        {{"cancel", "A", "--bond", "T"}, "cancel FIRM [--trader TRADER] --because TEXT"},
        {{"reset-session"}, "reset-session FIRM [--venue NAME] [--because TEXT]"},
        {{"reset-session", "A", "B"}, "reset-session FIRM [--venue NAME] [--because TEXT]"},
        {{"release"}, "release FIRM [--venue NAME] [--because TEXT]"},
        {{"release", "A", "B"}, "release FIRM [--venue NAME] [--because TEXT]"},
        {{"bust"}, "bust TRADE [--venue NAME] --because TEXT"},
        {{"bust", "A", "B"}, "bust TRADE [--venue NAME] --because TEXT"},
        {{"limit"}, "limit FIRM [KEY=VALUE] [--because TEXT]"},
        {{"limit", "A", "B=1", "C=1"}, "limit FIRM [KEY=VALUE] [--because TEXT]"},
        {{"clock", "accept", "A"}, "clock accept [--because TEXT]"},
        {{"reload", "A"}, "reload [--because TEXT]"},
        {{"log", "accept-loss", "A"}, "log accept-loss [--halt] --because TEXT"},
        {{"log", "accept-loss", "--halt", "A"}, "log accept-loss [--halt] --because TEXT"},
        {{"help", "A"}, "help"},
    };
    for (const auto &[words, usage] : wrong) {
        same("usage: " + usage, ann.fault_of(words), fmt::format("{}", fmt::join(words, " ")));
    }
}

TEST_CASE("what takes business away needs a reason") {
    Operator ann;
    for (const Words &words : std::vector<Words>{{"suspend", "A"},
                                                 {"halt"},
                                                 {"halt", "--bond", "B"},
                                                 {"cancel", "A"},
                                                 {"cancel", "A", "--trader", "T"},
                                                 {"bust", "20261130-I-D-1"},
                                                 {"log", "accept-loss"}}) {
        CHECK(ann.fault_of(words).starts_with("say why: --because \""));
        for (const char *none : {"", " ", "\t\n", "\x7f"}) {
            Words blank = words;
            blank.insert(blank.end(), {"--because", none});
            CHECK(ann.fault_of(blank) == "--because needs a reason after it");
        }
        Words ended = words;
        ended.push_back("--because");
        CHECK(ann.fault_of(ended) == "--because needs a reason after it");
    }
    CHECK(ann.fault_of({"halt", "--because", "\xc3\xa9"}) ==
          "no day is open: 20261201 opens at 07:00");
}

TEST_CASE("what acts on a day needs one") {
    Operator ann;
    for (const Words &words : std::vector<Words>{{"firms"},
                                                 {"firm", "A"},
                                                 {"hand-out", "A"},
                                                 {"end-day"},
                                                 {"end-day", "--now"},
                                                 {"suspend", "A", "--because", "x"},
                                                 {"resume"},
                                                 {"resume", "A"},
                                                 {"resume", "--bond", "B"},
                                                 {"halt", "--because", "x"},
                                                 {"halt", "--bond", "B", "--because", "x"},
                                                 {"cancel", "A", "--because", "x"},
                                                 {"cancel", "A", "--trader", "T", "--because", "x"},
                                                 {"reset-session", "A"},
                                                 {"release", "A"},
                                                 {"bust", "20261130-I-D-1", "--because", "x"},
                                                 {"limit", "A"},
                                                 {"limit", "A", "B=1"},
                                                 {"clock", "accept"},
                                                 {"reload"}}) {
        same<std::string>("no day is open: 20261201 opens at 07:00", ann.fault_of(words),
                          fmt::format("{}", fmt::join(words, " ")));
    }
}

TEST_CASE("an empty word is no whole venue, and no other trade's name one") {
    Operator ann;
    CHECK(ann.fault_of({"halt", "--bond", "", "--because", "x"}) == "--bond needs an ID after it");
    CHECK(ann.fault_of({"resume", "--bond", ""}) == "--bond needs an ID after it");
    CHECK(ann.fault_of({"cancel", "A", "--trader", "", "--because", "x"}) ==
          "--trader needs a name after it");
    for (const Words &words : std::vector<Words>{{"hand-out", "A", "--venue"},
                                                 {"reset-session", "A", "--venue", ""},
                                                 {"release", "--venue", "", "A"},
                                                 {"bust", "20261130-I-D-1", "--venue"}}) {
        same<std::string>("--venue needs a name after it", ann.fault_of(words),
                          fmt::format("{}", fmt::join(words, " ")));
    }
    CHECK(ann.fault_of({"hand-out", "--venue", "north", "A"}) ==
          "no day is open: 20261201 opens at 07:00");
    CHECK(ann.fault_of({"admit", "A", "x"}) ==
          "this is no line that signs a report: mireseason-certify --key writes it beside the "
          "report");
    for (const char *none :
         {"20261130-I-D", "20261130-I-D-", "20261130-I-D-0", "20261130-I-D-01", "20261130-I-D-x",
          "20261130-I-D-1-1", "20261130-I-D-1234567890", "A"}) {
        same(
            fmt::format("`{}` is no trade's name: it is DATE-INVESTOR-DEALER-K, as both firms have "
                        "it in TradeID (1003)",
                        none),
            ann.fault_of({"bust", none, "--because", "x"}), none);
    }
    CHECK(ann.fault_of({"bust", "20261130-I-D-123456789", "--because", "x"}) ==
          "no day is open: 20261201 opens at 07:00");
}

TEST_CASE("a command is named by one word or by two") {
    Operator ann;
    CHECK(ann.fault_of({"statsu"}) == "there is no command `statsu`; `status`?: `help` lists them");
    CHECK(ann.fault_of({"xyzxyz"}) == "there is no command `xyzxyz`: `help` lists them");
    CHECK(ann.fault_of({"log", "accept"}) ==
          "there is no command `log accept`; `clock accept`?: `help` lists them");
    CHECK(ann.fault_of({"log", "x"}) == "there is no command `log x`: `help` lists them");
    CHECK(ann.fault_of({"log", "accept-los"}) ==
          "there is no command `log accept-los`; `log accept-loss`?: `help` lists them");
    CHECK(ann.fault_of({"clock"}) == "there is no command `clock`: `help` lists them");
    CHECK(answer_to(ann.scene, "ann(7)", "2 text status") ==
          "error\nthis is no request of mireseason-admin\n");
    CHECK(ann.asks({"statsu"}, true) ==
          "error\n{\"error\": \"there is no command `statsu`; `status`?: `help` lists them\"}\n");
}

TEST_CASE("help lists every command") {
    Operator ann;
    const std::string text = ann.asks({"help"});
    CHECK(text.starts_with("ok\ncommand "));
    CHECK(text.find("\nhalt [--bond ID] --because TEXT ") != std::string::npos);
    CHECK(text.find("\nstatus ") != std::string::npos);
    CHECK(text.find("says what the gateway does\n") != std::string::npos);
    CHECK(admin_commands().size() == 20);
    const std::string rows = ann.asks({"help"}, true);
    CHECK(rows.find("{\"command\": \"halt [--bond ID] --because TEXT\", ") != std::string::npos);
    CHECK(rows.find("{\"command\": \"status\", ") != std::string::npos);
    for (const AdminCommand &command : admin_commands()) {
        CHECK(text.find("\n" + std::string(command.name) + " ") != std::string::npos);
    }
}

TEST_CASE("a loss is accepted with its acts") {
    Operator ann;
    CHECK(ann.asks({"log", "accept-loss", "--because", "x"}) ==
          "ok\naccepted, ann(7) log accept-loss x\n");
    CHECK(ann.asks({"log", "accept-loss", "--because", "x", "--halt"}) ==
          "ok\naccepted, ann(7) log accept-loss x, ann(7) halt x; the venue is halted until "
          "`resume`\n");
}

TEST_CASE("a state without a day") {
    Operator ann;
    ann.scene.around.restart = {"one", "two"};
    CHECK(ann.asks({"status"}) == "ok\none\ntwo\nstate  waits\nfor    20261201 opens at 07:00\n");
    CHECK(ann.asks({"status"}, true) ==
          "ok\n{\"said\": \"one\\u000atwo\", \"rows\": [{\"state\": \"waits\", \"for\": "
          "\"20261201 opens at 07:00\"}]}\n");
}

TEST_CASE("the next day, and what is at fault") {
    Operator ann;
    ann.scene.next = {"20261201", "07:00", "17:00", {Config(), Config()}, {}};
    ann.scene.next.configs[0].venue = "north";
    ann.scene.next.configs[0].firms.names = {"A", "B"};
    ann.scene.next.configs[1].venue = "south";
    CHECK(ann.asks({"next-day"}) == "ok\nthe files are right\n"
                                    "date      venue  opens  ends   firms  new_firms  firms_gone\n"
                                    "20261201  north  07:00  17:00  2      -          -\n"
                                    "20261201  south  07:00  17:00  0      -          -\n");
    ann.scene.next.configs.clear();
    ann.scene.next.faults = {"a", "b"};
    CHECK(ann.asks({"next-day"}) ==
          "ok\nthe files are at fault, and the day opens with what was right last:\na\nb\n");
}

// RFC 8259: what is no printable ASCII, a quotation mark and a backslash are escaped.
TEST_CASE("an answer for people, and for programs") {
    const AdminAnswer::Row row = {
        {"a", std::string("x\"\\\n")}, {"long", true}, {"b", std::uint64_t{7}}};
    CHECK(text_of(AdminAnswer{"said", {row}}) == "said\na     x\"\\\n\nlong  yes\nb     7\n");
    CHECK(json_of(AdminAnswer{"said", {row}}) ==
          "{\"said\": \"said\", \"rows\": [{\"a\": \"x\\\"\\\\\\u000a\", \"long\": true, \"b\": "
          "7}]}\n");
    const AdminAnswer::Row other = {
        {"a", std::string()}, {"long", false}, {"b", std::uint64_t{70}}};
    CHECK(text_of(AdminAnswer{"", {other, other}}) == "a  long  b\n-  no    70\n-  no    70\n");
    CHECK(json_of(AdminAnswer{"", {other, other}}) ==
          "{\"said\": \"\", \"rows\": [{\"a\": \"\", \"long\": false, \"b\": 70}, {\"a\": \"\", "
          "\"long\": false, \"b\": 70}]}\n");
    CHECK(text_of(AdminAnswer{"", {}}) == "");
    CHECK(text_of(AdminAnswer{"said", {}}) == "said\n");
    CHECK(json_of(AdminAnswer{"", {}}) == "{\"said\": \"\", \"rows\": []}\n");
    CHECK(json_of_error("~\x7f\xff") == "{\"error\": \"~\\u007f\\u00ff\"}\n");
}

// ---------------------------------------------------------------- who asks

std::array<Descriptor, 2> make_ends() {
    std::array<int, 2> ends{};
    REQUIRE(::socketpair(AF_UNIX, SOCK_STREAM | SOCK_CLOEXEC, 0, ends.data()) == 0);
    return {Descriptor(ends[0]), Descriptor(ends[1])};
}

TEST_CASE("who is at the other end, and may") {
    const auto own = make_ends();
    const auto peer = peer_of(own[0].number(), std::nullopt);
    REQUIRE(peer);
    CHECK(peer->user == ::geteuid());
    CHECK(peer->who == who_is(::geteuid()));
    CHECK(peer->may);
    CHECK_FALSE(peer_of(-1, std::nullopt));
    CHECK(who_is(0) == "root(0)");
    CHECK(who_is(3999999999) == "nobody(3999999999)");
    if (::geteuid() != 0) {
        return; // to be another is root's alone
    }
    constexpr uid_t other = 3999999999;
    constexpr gid_t group = 3999999990;
    std::vector<gid_t> before(static_cast<std::size_t>(::getgroups(0, nullptr)));
    REQUIRE(::getgroups(static_cast<int>(before.size()), before.data()) >= 0);
    const std::array<gid_t, 2> more = {group + 2, group + 3};
    REQUIRE(::setgroups(more.size(), more.data()) == 0);
    REQUIRE(::setegid(group) == 0);
    REQUIRE(::seteuid(other) == 0);
    const auto others = make_ends();
    REQUIRE(::seteuid(0) == 0);
    REQUIRE(::setegid(0) == 0);
    REQUIRE(::setgroups(before.size(), before.data()) == 0);
    const auto stranger = peer_of(others[0].number(), std::nullopt);
    REQUIRE(stranger);
    CHECK(stranger->user == other);
    CHECK(stranger->who == who_is(other));
    CHECK_FALSE(stranger->may);
    for (const gid_t none : {gid_t{0}, group + 1, group + 4}) {
        CHECK_FALSE(peer_of(others[0].number(), none)->may);
    }
    for (const gid_t own_group : {group, more[0], more[1]}) {
        CHECK(peer_of(others[0].number(), own_group)->may);
    }
}

// ---------------------------------------------------------------- the report that a firm brings

struct Brought {
    Scratch folder{"report"};
    std::filesystem::path report = folder.path() / "F.json";
    std::filesystem::path signature = folder.path() / "F.signature";

    Brought() { std::ofstream(report) << "passed"; }
    // What a line is told whose report has this digest.
    std::string line(const std::string &text, const std::string &end = "\n") const {
        const std::string line =
            fmt::format("mireseason-report 1 F investor passed 20261127 {} {} {}",
                        std::string(64, 'a'), text_of(sha256(text)), std::string(128, 'b'));
        std::ofstream(signature) << line << end;
        return line;
    }
    std::string fault() const {
        try {
            return "none: " + line_that_signs(report);
        } catch (const std::runtime_error &fault) {
            return fault.what();
        }
    }
};

TEST_CASE("a report is that of the line beside it") {
    const Brought brought;
    const std::string beside = brought.signature.string(), report = brought.report.string();
    CHECK(brought.fault() == beside + ": can't be read");
    const std::string line = brought.line("passed");
    CHECK(line_that_signs(brought.report) == line);
    brought.line("passed", "\r\n\n");
    CHECK(line_that_signs(brought.report) == line);
    brought.line("other");
    CHECK(brought.fault() == beside + ": signs another report than " + report);
    brought.line("passed", " x\n");
    CHECK(brought.fault() == beside + ": is no line that signs a report");
    std::ofstream(brought.signature) << std::string(4096, 'x');
    CHECK(brought.fault() == beside + ": is no line that signs a report");
    std::ofstream(brought.signature) << std::string(4097, 'x');
    CHECK(brought.fault() == beside + ": it is too long");
    brought.line("passed");
    std::filesystem::remove(brought.report);
    CHECK(brought.fault() == report + ": can't be read");
}

// A program of that name on the path takes the place of mireseason-credentials: it notes its words,
// and ends as it is told.
TEST_CASE("a report is kept where the program that keeps it says so") {
    const Scratch folder("kept");
    const auto program = folder.path() / "mireseason-credentials";
    const auto notes = folder.path() / "words";
    const std::string before = std::getenv("PATH");
    const auto keeps = [&](int status) {
        std::ofstream(program) << fmt::format("#!/bin/sh\nprintf '%s\\n' \"$@\" > {}\nexit {}\n",
                                              notes.string(), status);
        std::filesystem::permissions(program, std::filesystem::perms::owner_all);
        return keep_report("credentials.toml", "F", "the line");
    };
    REQUIRE(::setenv("PATH", folder.path().c_str(), 1) == 0);
    CHECK(keeps(0));
    std::ostringstream words;
    words << std::ifstream(notes).rdbuf();
    CHECK(words.str() == "--report\nthe line\nF\ncredentials.toml\n");
    CHECK_FALSE(keeps(1));
    std::filesystem::remove(program);
    CHECK_FALSE(keep_report("credentials.toml", "F", "the line"));
    REQUIRE(::setenv("PATH", before.c_str(), 1) == 0);
}

} // namespace gateway::tests
