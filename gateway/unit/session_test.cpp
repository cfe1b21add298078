// Tests what a session does with each message that comes, without a network: the rows of
// docs/SESSIONS.md. After a Logout was sent to a firm, nothing is taken from it.
#define DOCTEST_CONFIG_IMPLEMENT_WITH_MAIN
#include <doctest/doctest.h>

#include "check.h"
#include "door_scene.h"
#include "session/machine.h"
#include "session/refusal_words.h"

#include <algorithm>
#include <functional>
#include <tuple>

namespace gateway::tests {

namespace {

struct Odd {
    std::string what;
    std::string bytes;
    Calls said;  // its numbers and types
    Calls calls; // of the host
};

// A body that is framed as it is.
std::string raw(const std::string &body) {
    return framed(with_soh(body));
}

const std::string again = "43=Y|122=" + nine + "|";

// Of a message that is rejected: a part of the Reject.
struct Rejected {
    std::string what;
    std::string bytes;
    std::string reject;
};

std::vector<Rejected> rejected_frames() {
    const std::string x = std::string(5000, 'x');
    return {
        {"a SOH in a text", message_of("S", 3, "58=a|b|"), "|371=58|372=S|373=17|"},
        {"a second type", message_of("S", 3, "35=0|"), "|371=35|372=S|373=13|"},
        {"a second version", message_of("S", 3, "8=FIX.4.2|"), "|371=8|372=S|373=13|"},
        {"a type of five letters", message_of("SSSSS", 3, ""), "|371=35|373=11|"},
        {"a text too long", message_of("S", 3, "58=" + x + "|"), "|371=9|372=S|373=5|"},
        {"a TestReqID too long", message_of("1", 3, "112=" + x.substr(0, 1025) + "|"),
         "|371=112|372=1|373=5|"},
        {"no 52", raw("35=S|49=F|56=VENUE|34=3|"), "|371=52|372=S|373=1|"},
        {"a 52 that is none", message_of("S", 3, "", "yesterday"), "|371=52|372=S|373=6|"},
        {"43=Y without 122", message_of("S", 3, "43=Y|"), "|371=122|372=S|373=1|"},
        {"43=Y with a 122 that is none", message_of("S", 3, "43=Y|122=x|"),
         "|371=122|372=S|373=6|"},
        {"a 122 of another day", message_of("S", 3, "43=Y|122=20250313-09:00:00|"),
         "|371=122|372=S|373=5|"},
        {"no 35", raw("49=F|56=VENUE|34=3|52=" + nine + "|"), "|371=35|373=1|"},
        {"another first field", raw("49=F|35=S|56=VENUE|34=3|52=" + nine + "|"),
         "|371=49|372=S|373=14|"},
        {"no first field", raw("abc|35=S|49=F|56=VENUE|34=3|52=" + nine + "|"), "|372=S|373=17|"},
        {"a type with a sign", message_of("S-", 3, ""), "|371=35|373=11|"},
        {"a second length", message_of("S", 3, "9=5|"), "|371=9|372=S|373=13|"},
        {"a second sum", message_of("S", 3, "10=000|"), "|371=10|372=S|373=13|"},
        {"a tag that begins with 0", message_of("S", 3, "058=a|"), "|372=S|373=0|"},
        {"a tag of ten digits", message_of("S", 3, "1234567890=a|"), "|372=S|373=0|"},
        {"a tag that is no number", message_of("S", 3, "5a=a|"), "|372=S|373=0|"},
        {"no SOH at the end", raw("35=S|49=F|56=VENUE|34=3|52=" + nine + "|58=a"),
         "|371=58|372=S|373=6|"},
    };
}

// Each field that the session reads and that stands there twice, by docs/FORMATS.md.
std::vector<Rejected> repeated_fields() {
    std::vector<Rejected> all;
    for (const auto &[tag, value] : std::vector<std::pair<int, std::string>>{
             {49, "F"},   {56, "VENUE"}, {52, nine}, {43, "N"}, {97, "N"},  {122, nine}, {50, "a"},
             {57, "a"},   {553, "a"},    {554, "a"}, {98, "0"}, {108, "1"}, {141, "N"},  {789, "1"},
             {1137, "9"}, {7, "1"},      {16, "1"},  {36, "1"}, {112, "a"}, {123, "N"}}) {
        const std::string field = fmt::format("{}={}|", tag, value);
        const bool is_there = tag == 49 || tag == 56 || tag == 52;
        all.push_back({field + " twice", message_of("S", 3, is_there ? field : field + field),
                       fmt::format("|371={}|372=S|373=13|", tag)});
    }
    return all;
}

std::vector<Rejected> rejected_values() {
    return {
        {"a TestRequest without 112", message_of("1", 3, ""), "|371=112|372=1|373=1|"},
        {"a TestRequest with an empty 112", message_of("1", 3, "112=|"), "|371=112|372=1|373=4|"},
        {"a gap fill back", message_of("4", 3, "123=Y|36=3|"), "|371=36|372=4|373=5|"},
        {"a gap fill without 36", message_of("4", 3, "123=Y|"), "|371=36|372=4|373=1|"},
        {"a gap fill past all numbers", message_of("4", 3, "123=Y|36=4294967396|"),
         "|371=36|372=4|373=6|"},
        {"a reset past all numbers", message_of("4", 3, "36=4294967396|"), "|371=36|372=4|373=6|"},
        {"a reset back", message_of("4", 3, "36=2|"), "|371=36|372=4|373=5|"},
        {"a reset without 36", message_of("4", 3, ""), "|371=36|372=4|373=1|"},
        {"a request past all numbers", message_of("2", 3, "7=4294967296|16=0|"),
         "|371=7|372=2|373=6|"},
        {"a request without an end", message_of("2", 3, "7=1|"), "|371=16|372=2|373=1|"},
        {"a request of what was not sent", message_of("2", 3, "7=3|16=0|"), "|371=7|372=2|373=5|"},
        {"a request that ends before its begin", message_of("2", 3, "7=2|16=1|"),
         "|371=16|372=2|373=5|"},
    };
}

std::vector<Odd> ignored_messages() {
    return {
        {"a wrong sum", with_soh("8=FIXT.1.1|9=5|35=0|10=000|"), {}, {}},
        {"garbage", with_soh("abc|"), {}, {}},
        {"an old message again", message_of("S", 2, again), {}, {}},
        {"a reset to what is expected", message_of("4", 9, "36=3|"), {}, {}},
    };
}

std::vector<Odd> odd_messages() {
    const std::string late = "20250314-08:50:00";
    const std::string gap = "7=2|16=2|";
    const Calls asked = {"3 2"};
    return {
        {"a late one that is sent again",
         message_of("S", 3, "43=Y|122=" + late + "|", late),
         {},
         {"received 3", "expects 4"}},
        {"one of two minutes ago",
         message_of("S", 3, "", "20250314-08:58:00"),
         {},
         {"received 3", "expects 4"}},
        {"one ahead of a gap", message_of("S", 5, ""), asked, {}},
        {"a fault ahead of a gap", message_of("S", 5, "58=a|b|"), asked, {}},
        {"a late one ahead of a gap", message_of("S", 5, "", late), asked, {}},
        {"a reset", message_of("4", 77, "36=9|"), {}, {"expects 9"}},
        {"a gap fill", message_of("4", 3, "123=Y|36=9|"), {}, {"expects 9"}},
        {"a Reject of the firm", message_of("3", 3, "45=1|"), {}, {"expects 4"}},
        {"a TestRequest", message_of("1", 3, "112=a b|"), {"3 0"}, {"expects 4"}},
    };
}

// The session goes on.
void check_odd(const Odd &odd) {
    Scene scene;
    Talk talk(scene);
    talk.settle();
    talk.say(odd.bytes);
    check(!talk.ear.ends, odd.what + ": the connection ends");
    check_calls(odd.said, talk.ear.heard(), odd.what + ": what is said");
    check_calls(odd.calls, scene.book.calls, odd.what);
}

TEST_CASE("odd message") {
    for (const auto &table : {ignored_messages(), odd_messages()}) {
        for (const Odd &each : table) {
            check_odd(each);
        }
    }
}

// It uses up its number, and is kept.
TEST_CASE("rejected message") {
    for (const auto &table : {rejected_frames(), repeated_fields(), rejected_values()}) {
        for (const Rejected &each : table) {
            check_odd({each.what, each.bytes, {"3 3"}, {"expects 4", "kept 3 3"}});
            Scene scene;
            Talk talk(scene);
            talk.settle();
            talk.say(each.bytes);
            const std::string said = talk.ear.messages.at(0);
            check(said.find("|45=3" + each.reject) != std::string::npos,
                  each.what + ": it is told " + said);
        }
    }
}

// Both sides have a gap: a ResendRequest is done all the same, or neither would fill its own. But a
// message that is another's asks for nothing.
TEST_CASE("resend ahead of a gap") {
    Scene scene;
    Talk talk(scene);
    talk.settle();
    scene.give(1);
    check_calls({"3 AI"}, talk.ear.heard(), "a message of the venue");
    talk.say(message_of("2", 5, "7=3|16=0|"));
    const Calls heard = talk.ear.heard();
    check(std::ranges::count(heard, "3 AI again") == 1 && std::ranges::count(heard, "4 2") == 1,
          fmt::format("a ResendRequest ahead of a gap: {}", heard));
}

// A Logout, and then nothing of the firm is taken but its own.
TEST_CASE("after a logout") {
    const std::string endless = "8=FIXT.1.1\x01"
                                "9=70000\x01" +
                                std::string(70000, 'x');
    const Calls logout = {"3 5"};
    const Calls both = {"3 3", "4 5"};
    const Calls rejected = {"expects 4", "kept 3 3"};
    const std::tuple<std::string, std::string, Calls, Calls> tries[] = {
        {"no number", raw("35=S|49=F|56=VENUE|52=" + nine + "|"), logout, {}},
        {"a number past all numbers", message_of("S", "4294967299", ""), logout, {}},
        {"a number twice", message_of("S", 3, "34=3|"), logout, {}},
        {"a number that came before", message_of("S", 2, ""), logout, {}},
        {"a second Logon", logon_of(3), logout, {"expects 4"}},
        {"a late message", message_of("S", 3, "", "20250314-08:57:59"), both, rejected},
        {"another's name", raw("35=S|49=G|56=VENUE|34=3|52=" + nine + "|"), both, rejected},
        {"no name", raw("35=S|56=VENUE|34=3|52=" + nine + "|"), both, rejected},
        {"to another", raw("35=S|49=F|56=OTHER|34=3|52=" + nine + "|"), both, rejected},
        {"122 after 52", message_of("S", 3, "43=Y|122=20250314-09:00:01|"), both, rejected},
        {"bytes without end", endless, logout, {}},
    };
    for (const auto &[what, bytes, said, calls] : tries) {
        Scene scene;
        Talk talk(scene);
        talk.settle();
        talk.say(bytes);
        check_calls(said, talk.ear.heard(), what + ": what is said");
        check(!value_of(talk.ear.last.back(), 58).empty(), what + ": a Logout without a reason");
        for (int number = 3; number <= 5; ++number) {
            talk.say(message_of("AJ", number, "694=1|") + message_of("4", number, "36=50|") +
                     logon_of(number));
        }
        check_calls({}, talk.ear.heard(), what + ": what is said behind the Logout");
        check_calls(calls, scene.book.calls, what);
        check(!talk.ear.ends, what + ": the firm can't answer");
        talk.wait(3);
        check(talk.ear.ends, what + ": the connection stays");
    }
}

// Another version is named, and counted where it bears the number that is expected.
TEST_CASE("another version") {
    Scene scene;
    Talk talk(scene);
    talk.settle();
    std::string other = message_of("S", 3, "");
    unsigned sum = 0;
    other.replace(2, 8, "FIX.4.44");
    other.erase(other.size() - 7);
    for (const char byte : other) {
        sum += static_cast<unsigned char>(byte);
    }
    talk.say(other + with_soh(fmt::format("10={:03}|", sum % 256)));
    check_calls({"3 5"}, talk.ear.heard(), "a message of another version");
    check(value_of(talk.ear.last[0], 58).find("FIX.4.44") != std::string::npos, "it is not named");
    check_calls({"expects 4"}, scene.book.calls, "a message of another version");
}

// The connection ends by the firm's Logout, which is counted.
TEST_CASE("logout is answered") {
    Scene scene;
    Talk talk(scene);
    talk.settle();
    scene.sessions.log_out("the day is over");
    talk.serve();
    check_calls({"3 5"}, talk.ear.heard(), "what is said at the end");
    same<std::string>("the day is over", value_of(talk.ear.last[0], 58), "why");
    check(!talk.ear.ends, "the firm can't answer");
    talk.say(message_of("5", 3, ""));
    check(talk.ear.ends, "the connection stays");
    check_calls({"expects 4", "ended 1"}, scene.book.calls, "a Logout that is answered");
}

TEST_CASE("logout of the firm") {
    Scene scene;
    Talk talk(scene);
    talk.settle();
    talk.say(message_of("5", 3, "") + message_of("AJ", 4, "694=1|"));
    check_calls({"3 5"}, talk.ear.heard(), "the answer");
    check(talk.ear.ends, "the connection stays");
    check_calls({"expects 4", "ended 1"}, scene.book.calls, "a Logout");
    same(0, scene.book.logons, "sessions that stand");
}

// What came is asked for once; what is sent again is taken in its order, whenever it comes.
TEST_CASE("gap that is filled") {
    Scene scene;
    Talk talk(scene);
    talk.settle();
    talk.say(message_of("S", 5, "") + message_of("S", 6, ""));
    check_calls({"3 2"}, talk.ear.heard(), "what is asked for");
    same<std::string>("3", value_of(talk.ear.last[0], 7), "from where");
    scene.clock.move(std::chrono::minutes(3));
    for (int number = 3; number <= 6; ++number) {
        talk.say(message_of("S", number, again, "20250314-09:03:00"));
    }
    check_calls({"received 3", "expects 4", "received 4", "expects 5", "received 5", "expects 6",
                 "received 6", "expects 7"},
                scene.book.calls, "a gap that is filled");
}

// It is asked for again after ten seconds without the first of it, and no sooner.
TEST_CASE("gap that is not filled") {
    Scene scene;
    Talk talk(scene);
    talk.settle();
    talk.say(message_of("S", 5, ""));
    check_calls({"3 2"}, talk.ear.heard(), "what is asked for");
    talk.wait(9);
    check_calls({}, talk.ear.heard(), "what is said for nine seconds");
    talk.wait(1);
    check_calls({"4 2"}, talk.ear.heard(), "what is said after ten");
}

// The Logon is part of the gap: a stock engine fills it with what else was its session's own.
TEST_CASE("logon ahead of a gap") {
    Scene scene;
    Talk talk(scene);
    talk.say(logon_of(3));
    check_calls({"1 A", "2 2", "3 1"}, talk.ear.heard(), "what a Logon ahead is answered");
    same<std::string>("1", value_of(talk.ear.last[1], 7), "from where");
    check_calls({"accepted 1"}, scene.book.calls, "a Logon ahead");
    talk.say(message_of("S", 1, again) + message_of("S", 2, again));
    talk.say(message_of("4", 3, again + "123=Y|36=4|") + message_of("0", 4, "112=3|"));
    talk.say(message_of("S", 5, ""));
    check_calls({"accepted 1", "received 1", "expects 2", "received 2", "expects 3", "expects 4",
                 "expects 5", "received 5", "expects 6"},
                scene.book.calls, "what is filled");
    check_calls({}, talk.ear.heard(), "what is said");
}

// The engine of one that gives a 789 resends by itself: what is missing is asked for after ten
// seconds alone.
TEST_CASE("logon with the next number") {
    Scene scene;
    scene.give(1);
    Talk talk(scene);
    talk.say(logon_of(3, "789=1|"));
    check_calls({"1 A", "3 1"}, talk.ear.heard(), "what it is answered");
    same<std::string>("1", value_of(talk.ear.last[0], 789), "the number that is expected");
    talk.wait(10);
    check_calls({"4 2", "5 1"}, talk.ear.heard(), "what is said after ten seconds");
}

// ---------------------------------------------------------------- settling

// A Reject waits for the answer, and what is numbered behind it; all else leaves.
TEST_CASE("what waits while a session settles") {
    Scene scene;
    Talk talk(scene);
    talk.say(logon_of());
    talk.ear.heard();
    scene.give(1);
    check_calls({"3 AI"}, talk.ear.heard(), "a message of the venue");
    scene.give(2, "3", "45=2|373=1|");
    scene.give(3);
    talk.say(message_of("S", 2, "58=a|b|"));
    talk.serve();
    check_calls({}, talk.ear.heard(), "what is said before the answer");
    talk.say(message_of("0", 3, "112=2|"));
    check_calls({"4 3", "5 AI", "6 3"}, talk.ear.heard(), "what is said behind it");
}

// Only a TestRequest overtakes what waits; its answer settles, and no earlier one's.
TEST_CASE("asked again while it settles") {
    Scene scene;
    Talk talk(scene);
    talk.say(logon_of());
    scene.give(1, "3", "45=2|373=1|");
    talk.ear.heard();
    talk.wait(9);
    check_calls({}, talk.ear.heard(), "what is said for nine seconds");
    talk.wait(1);
    check_calls({"4 1"}, talk.ear.heard(), "what is said after ten");
    talk.say(message_of("0", 2, "112=2|"));
    check_calls({}, talk.ear.heard(), "what is said to the answer of the first");
    talk.say(message_of("0", 3, "112=4|"));
    check_calls({"3 3"}, talk.ear.heard(), "what is said to the answer of the second");
}

// Each Logout is a disconnect.
// No more is read of the log than is to leave, and each read counts as some messages, so that a
// firm which asks for one again and again has the log read no faster than for many.
TEST_CASE("what is read for a resend") {
    constexpr std::uint32_t given = 300;
    Scene scene;
    Talk talk(scene);
    talk.settle();
    for (std::uint32_t number = 1; number <= given; ++number) {
        scene.give(number);
    }
    talk.ear.heard();
    talk.say(message_of("2", 3, "7=5|16=5|"));
    check_calls({"5 AI again"}, talk.ear.heard(), "what it is sent");
    same<std::size_t>(1, scene.book.reads.size(), "reads for one message");
    same<std::size_t>(1, scene.book.reads.at(0), "what is read for it at most");
    constexpr std::size_t of_a_read = 64;
    same(of_a_read, scene.book.sent_again, "what it counts");
    talk.say(message_of("2", 4, "7=3|16=0|"));
    same<std::size_t>(given, talk.ear.heard().size(), "what it is sent of all");
    const std::size_t counted = scene.book.sent_again - of_a_read;
    check(counted >= given && counted < given + of_a_read, fmt::format("all count {}", counted));
}

// It leaves behind what was asked for, and no number is taken for one without a message.
TEST_CASE("given while the log is read for a resend") {
    Scene scene;
    Talk talk(scene);
    talk.settle();
    scene.give(1);
    scene.give(2);
    talk.ear.heard();
    scene.book.happens_at_next_read = [&] { scene.give(3); };
    talk.say(message_of("2", 3, "7=3|16=0|"));
    scene.give(4);
    talk.serve();
    check_calls({"3 AI again", "4 AI again", "5 AI", "6 AI"}, talk.ear.heard(), "what it is sent");
}

TEST_CASE("no logout while it settles") {
    for (const std::string &bytes :
         {message_of("S", 1, ""), logon_of(2), raw("35=S|49=F|56=VENUE|52=" + nine + "|")}) {
        Scene scene;
        Talk talk(scene);
        talk.say(logon_of());
        talk.ear.heard();
        talk.say(bytes);
        check_calls({}, talk.ear.heard(), "what is said to " + with_bars(bytes));
        check(talk.ear.ends, "the connection stays");
    }
    Scene scene;
    Talk talk(scene);
    talk.say(logon_of());
    talk.ear.heard();
    scene.sessions.log_out("the day is over");
    talk.serve();
    check(talk.ear.ends && talk.ear.heard().empty(), "it is told that the day is over");
}

TEST_CASE("never settles") {
    Scene scene;
    Talk talk(scene);
    talk.say(message_of("A", 1, "98=0|108=300|553=F|554=x|1137=9|"));
    talk.wait(59);
    check(!talk.ear.ends, "the connection ends before a minute");
    talk.wait(1);
    check(talk.ear.ends, "the connection stays");
    for (const std::string &message : talk.ear.messages) {
        check(value_of(message, 35) != "5", "it is told " + message);
    }
}

// ---------------------------------------------------------------- time

TEST_CASE("heartbeats and silence") {
    Scene scene;
    Talk talk(scene);
    talk.say(message_of("A", 1, "98=0|108=10|553=F|554=x|1137=9|"));
    talk.say(message_of("0", 2, "112=2|"));
    talk.ear.heard();
    talk.wait(9);
    check_calls({}, talk.ear.heard(), "for nine seconds");
    talk.wait(1);
    check_calls({"3 0"}, talk.ear.heard(), "after ten");
    talk.wait(2);
    check_calls({"4 1"}, talk.ear.heard(), "after twelve without a word of the firm");
    talk.wait(11);
    check_calls({"5 0"}, talk.ear.heard(), "for 23");
    check(!talk.ear.ends, "it ends before 24");
    talk.wait(1);
    check_calls({"6 5"}, talk.ear.heard(), "after 24");
    check(talk.ear.ends, "the connection stays");
}

// The bytes were read at nine, and the log took seven seconds for the first of the messages.
TEST_CASE("what the log takes its time for is no silence") {
    Scene scene;
    Talk talk(scene);
    talk.say(message_of("A", 1, "98=0|108=2|553=F|554=x|1137=9|"));
    talk.say(message_of("0", 2, "112=2|"));
    talk.ear.heard();
    const std::string bytes = message_of("S", 3, "117=a|") + message_of("S", 5, "117=b|");
    scene.clock.move(std::chrono::seconds(7));
    talk.conversation.hear(bytes.data(), bytes.size(), at_nine);
    check_calls({"3 2"}, talk.ear.heard(), "what a gap is answered");
    check(!talk.ear.ends, "the firm is taken for silent");
}

// ---------------------------------------------------------------- what a firm has the session say

// Each message of the session's own that a firm can have it say without another Logon.
TEST_CASE("what counts as a reply") {
    Scene scene;
    Talk talk(scene);
    talk.settle();
    same(std::size_t{0}, scene.book.replies, "a Logon, and the answer to its TestRequest");
    talk.say(message_of("1", 3, "112=a|"));
    same(std::size_t{1}, scene.book.replies, "a TestRequest");
    talk.say(message_of("1", 4, ""));
    same(std::size_t{2}, scene.book.replies, "a message that is rejected");
    talk.say(message_of("0", 6, ""));
    same(std::size_t{3}, scene.book.replies, "a message ahead of a gap");
    talk.say(message_of("4", 5, "123=Y|36=7|"));
    talk.say(message_of("0", 7, ""));
    talk.say(message_of("S", 8, "117=a|"));
    talk.say(message_of("2", 9, "7=4|16=4|"));
    same(std::size_t{3}, scene.book.replies, "what the session says nothing of its own to");
    talk.say(message_of("5", 10, ""));
    check_calls({"3 0", "4 3", "5 2", "4 3 again", "6 5"}, talk.ear.heard(), "what is said");
    same(std::size_t{3}, scene.book.replies, "a Logout");
}

// A resend that covers the TestRequest has another one leave behind it.
TEST_CASE("what counts as a reply while a session settles") {
    Scene scene;
    Talk talk(scene);
    talk.say(logon_of());
    check_calls({"1 A", "2 1"}, talk.ear.heard(), "what a Logon is answered");
    same(std::size_t{0}, scene.book.replies, "a Logon, and the TestRequest behind its answer");
    for (int count = 1; count <= 3; ++count) {
        talk.say(message_of("2", 1 + count, "7=1|16=0|"));
        check(talk.ear.heard().back() == fmt::format("{} 1", 2 + count), "no other TestRequest");
        same(static_cast<std::size_t>(count), scene.book.replies, "a resend");
    }
}

// The firm is logged out behind the first that is one too many, and told why; what it sent behind
// that is not counted.
TEST_CASE("more replies than a firm may have") {
    Scene scene;
    scene.book.most_replies = 2;
    Talk talk(scene);
    talk.settle();
    for (int number = 3; number <= 6; ++number) {
        talk.say(message_of("1", number, "112=a|"));
    }
    check_calls({"3 0", "4 0", "5 0", "6 5"}, talk.ear.heard(), "what is said");
    same(std::string("more than a thousand messages of this firm, and then ten a second, had to be "
                     "answered by the session"),
         value_of(talk.ear.last.back(), 58), "why");
    check_calls({"expects 4", "expects 5", "expects 6"}, scene.book.calls, "what is counted");
}

// What was said in a turn of its own counts at the firm's next message. There is no Logout, since
// the session has not settled.
TEST_CASE("more replies than a firm may have while it settles") {
    Scene scene;
    scene.book.most_replies = 2;
    Talk talk(scene);
    talk.say(logon_of());
    int number = 2;
    for (; number <= 4; ++number) {
        talk.say(message_of("2", number, "7=1|16=0|"));
        check(!talk.ear.ends, fmt::format("it ends at the message {}", number));
    }
    talk.say(message_of("2", number, "7=1|16=0|"));
    check(talk.ear.ends, "it goes on without end");
    for (const std::string &message : talk.ear.messages) {
        check(value_of(message, 35) != "5", "it is told " + message);
    }
}

// Each Logout that refuses a Logon counts. A Logon that is refused behind too many is told nothing,
// and nothing of the session changes; the operator is told why.
TEST_CASE("more refused Logons than a firm may have") {
    Scene scene;
    scene.book.most_replies = 2;
    const std::string refused = message_of("A", 1, "98=0|108=0|553=F|554=x|1137=9|");
    for (int number = 1; number <= 3; ++number) {
        Talk talk(scene);
        talk.say(refused);
        check_calls({fmt::format("{} 5", number)}, talk.ear.heard(), "what it is told");
    }
    const SessionNumbers before = scene.book.numbers;
    Talk talk(scene);
    talk.say(refused);
    check_calls({}, talk.ear.heard(), "what it is told behind three");
    check(talk.ear.ends, "its connection stays");
    check(before == scene.book.numbers, "the numbers are others");
    same(std::vector<std::string>(4, refusal_words::heartbeat), scene.book.refusals, "why");
    Talk right(scene);
    right.say(logon_of());
    check_calls({"4 A", "5 1"}, right.ear.heard(), "what a Logon is told that is right");
}

// At most two minutes from the gateway's clock, either way.
TEST_CASE("how far a firm's clock may be off") {
    for (const auto &[sent, is_taken] :
         std::vector<std::pair<std::string, bool>>{{"20250314-08:57:59.999", false},
                                                   {"20250314-08:58:00", true},
                                                   {"20250314-09:02:00", true},
                                                   {"20250314-09:02:00.001", false}}) {
        Scene scene;
        Talk talk(scene);
        talk.settle();
        talk.say(message_of("S", 3, "117=a|", sent));
        check(is_taken == (std::ranges::count(scene.book.calls, "received 3") == 1), sent);
    }
}

// The firm has two seconds for its own.
TEST_CASE("a Logout that is not answered") {
    Scene scene;
    Talk talk(scene);
    talk.settle();
    scene.sessions.log_out("the day has ended");
    talk.serve();
    talk.wait(1);
    check(!talk.ear.ends, "the connection ends before the firm has answered");
    talk.wait(1);
    check(talk.ear.ends, "the connection stays");
}

// ---------------------------------------------------------------- what a session keeps of a line

constexpr std::uint32_t nine_of_day = 9 * 60 * 60 * 1000;

// As fix_sessions.h has its members.
TEST_CASE("the line of a Logon") {
    Machine machine({"F", "", today}, std::nullopt);
    machine.ordered(nine_of_day, Order::open);
    machine.adopt();
    machine.came(nine_of_day, 7, logon_of(), true);
    const Line &line = machine.next().line;
    CHECK(machine.next().phase == Machine::phase_on);
    CHECK(line.connection == 7);
    CHECK(line.heartbeat == 30000);
    CHECK(line.received == nine_of_day);
    CHECK(line.sent == nine_of_day);
    CHECK(line.settling_since == nine_of_day);
    CHECK(line.gap == 0);
    CHECK(line.first_test == 0);
    CHECK(line.last_test == 0);
    CHECK(line.is_test_due);
    CHECK_FALSE(line.is_settled);
}

// After a start of the gateway, and once a log has been read to its end.
TEST_CASE("a session begins with the numbers that were kept") {
    SessionNumbers kept;
    kept.expected = 11;
    kept.next = 12;
    kept.had = 3;
    kept.first_given = 4;
    kept.last_given = 7;
    kept.last_kept = 9;
    kept.is_one_free = false;
    kept.was_taken = true;
    kept.is_reset = true;
    kept.reset_at = 13;
    kept.is_locked = true;
    kept.last_logon = 14;
    kept.is_suspended = true;
    CHECK(Machine({"F", "", today}, kept).numbers() == kept);
    Machine machine({"F", "", today}, std::nullopt);
    CHECK(machine.numbers() == SessionNumbers());
    machine.begin_with(kept);
    CHECK(machine.numbers() == kept);
}

// For the operator: of the connection that has the session, and of no other.
TEST_CASE("what a firm has not taken yet") {
    Scene scene;
    same<std::size_t>(0, scene.session().waiting_bytes(), "without a connection");
    Talk talk(scene);
    talk.ear.waits = 7;
    same<std::size_t>(0, scene.session().waiting_bytes(), "before a Logon");
    talk.settle();
    same<std::size_t>(7, scene.session().waiting_bytes(), "of the connection");
    talk.end();
    same<std::size_t>(0, scene.session().waiting_bytes(), "behind its end");
}

TEST_CASE("a connection that waited is forgotten") {
    SessionState session{};
    fix_sessions_new(&session);
    session.waits = true;
    session.waiting = {7, nine_of_day, true};
    fix_sessions_gone(&session, 6);
    CHECK(session.waits);
    CHECK(session.waiting.connection == 7);
    fix_sessions_gone(&session, 7);
    CHECK_FALSE(session.waits);
    CHECK(session.waiting.connection == 0);
    CHECK(session.waiting.since == 0);
    CHECK_FALSE(session.waiting.is_alive);
}

// ---------------------------------------------------------------- what the operator is told

// Of messages that do not reach the venue.
TEST_CASE("what the operator is told of a firm's messages") {
    Scene scene;
    Talk talk(scene);
    talk.settle();
    talk.say(message_of("0", 3, ""));
    check_calls({}, scene.gate.drops, "of a Heartbeat");
    talk.say(message_of("3", 4, "45=1|"));
    talk.say(message_of("1", 5, ""));
    scene.book.denial = {Taken::Verdict::denied, 4, "a", "the venue is halted"};
    talk.say(message_of("S", 6, "117=a|"));
    scene.book.denial = {};
    talk.say("xyz" + message_of("0", 7, ""));
    talk.say(message_of("0", 9, ""));
    talk.say(message_of("0", 10, ""));
    talk.say(message_of("4", 8, "123=Y|36=11|"));
    talk.say(message_of("0", 11, ""));
    check_calls({"rejected by the firm", "session reject", "not taken", "no message", "gap", "gap"},
                scene.gate.drops, "what is told");
}

// In the words that the firm was told, where it was told some.
TEST_CASE("why a connection has ended") {
    const auto ends_by = [](const std::function<void(Scene &, Talk &)> &happens) {
        Scene scene;
        Talk talk(scene);
        talk.settle();
        happens(scene, talk);
        talk.serve();
        const Calls heard = talk.ear.heard();
        const std::string told = heard.empty() ? std::string() : value_of(talk.ear.last.back(), 58);
        talk.end();
        same<std::size_t>(1, scene.book.ends.size(), "ends of its connection");
        return std::pair(scene.book.ends.at(0), told);
    };
    const auto is_as_told = [&](const std::string &begin,
                                const std::function<void(Scene &, Talk &)> &happens) {
        const auto [why, told] = ends_by(happens);
        check(told.starts_with(begin), "it is told " + told);
        check(why.ends_with(told), fmt::format("it is told {}, and the log {}", told, why));
    };
    is_as_told("MsgSeqNum too low", [](Scene &, Talk &talk) { talk.say(message_of("S", 2, "")); });
    is_as_told("the day has ended",
               [](Scene &scene, Talk &) { scene.sessions.log_out("the day has ended"); });
    const auto own = ends_by([](Scene &, Talk &talk) { talk.say(message_of("5", 3, "")); });
    check(own.first.ends_with("the firm has logged out"), own.first);
    const auto reset = ends_by([](Scene &scene, Talk &) { scene.session().reset(1); });
    check(reset.first.ends_with("an operator has reset the session"), reset.first);
    const auto suspended = ends_by([](Scene &scene, Talk &) { scene.session().suspend(); });
    check(suspended.first.ends_with("an operator has suspended the firm"), suspended.first);
}

// A firm that has not answered its TestRequest may miss a message, so that it is closed without a
// word; the operator reads what one that has answered would have been told.
TEST_CASE("why a connection has ended that was told nothing") {
    const auto ends_by = [](int heartbeat, const std::function<void(Talk &)> &happens) {
        Scene scene;
        Talk talk(scene);
        talk.say(message_of("A", 1, fmt::format("98=0|108={}|553=F|554=x|1137=9|", heartbeat)));
        check_calls({"1 A", "2 1"}, talk.ear.heard(), "what a Logon is answered");
        happens(talk);
        talk.serve();
        for (const std::string &heard : talk.ear.heard()) {
            check(!heard.ends_with(" 5"), "it is told " + heard);
        }
        check(talk.ear.ends, "it goes on");
        talk.end();
        same<std::size_t>(1, scene.book.ends.size(), "ends of its connection");
        return scene.book.ends.at(0);
    };
    const std::string begin = "the session ended it: ";
    const auto says = [&](const std::string &message) {
        return ends_by(30, [&](Talk &talk) { talk.say(message); });
    };
    same(begin + "MsgSeqNum too low, expecting 2", says(message_of("S", 1, "")),
         "of a number that is too low");
    same(begin + "logged on already", says(logon_of(2)), "of a second Logon");
    same(begin + "nothing came", ends_by(20, [](Talk &talk) { talk.wait(50); }), "of silence");
    same(begin + "by the rules of the session, without a word",
         ends_by(30, [](Talk &talk) { talk.wait(61); }), "of a TestRequest without an answer");
}

// ---------------------------------------------------------------- what the gateway does not take

TEST_CASE("a message that is not taken") {
    Scene scene;
    Talk talk(scene);
    talk.settle();
    scene.book.denial.verdict = Taken::Verdict::denied;
    scene.book.denial.reason = 4;
    scene.book.denial.id = "q1";
    scene.book.denial.text = "not now";
    talk.say(message_of("S", 3, "117=q1|"));
    check_calls({"3 j"}, talk.ear.heard(), "what it is told");
    const std::string told = talk.ear.last[0];
    check(told.find("|45=3|372=S|379=q1|380=4|58=not now|10=") != std::string::npos, told);
    check_calls({"expects 4", "kept 3 j"}, scene.book.calls, "a message that is not taken");
    scene.book.denial = {};
    talk.say(message_of("S", 4, "117=q2|"));
    check_calls({"expects 4", "kept 3 j", "received 4", "expects 5"}, scene.book.calls,
                "the next one");
    talk.say(message_of("2", 5, "7=3|16=3|"));
    check_calls({"3 j again"}, talk.ear.heard(), "what is sent again");
    scene.book.denial = {Taken::Verdict::denied, 0, "", "not so"};
    talk.say(message_of("R", 6, ""));
    check_calls({"4 j"}, talk.ear.heard(), "what it is told of one without a name");
    const std::string nameless = talk.ear.last[0];
    check(nameless.find("|45=6|372=R|380=0|58=not so|10=") != std::string::npos, nameless);
}

} // namespace

} // namespace gateway::tests
