// Attacks by somebody who has read the code: types and bytes of every kind, the ends of all
// numbers, connections of one firm that come at one time, and what a session promises of its log,
// of a restart and of an operator's reset.
#define DOCTEST_CONFIG_IMPLEMENT_WITH_MAIN
#include <doctest/doctest.h>

#include "check.h"
#include "door_scene.h"
#include "session/refusal_words.h"

#include <algorithm>
#include <atomic>
#include <map>
#include <mutex>
#include <random>
#include <thread>

#include <fmt/ranges.h>

namespace gateway::tests {

namespace {

// ---------------------------------------------------------------- what a message may be

// Each of one or two letters or digits, and some longer ones; not those of the session.
Calls types_of_the_application() {
    const std::string signs = "0123456789ABCDEFGHIJKLMNOPQRSTUVWXYZabcdefghijklmnopqrstuvwxyz";
    const std::string of_session = "0A12345";
    Calls types = {"AAAA", "0000", "A00", "5AA"};
    for (std::size_t at = 0; at < signs.size() * (signs.size() + 1); ++at) {
        const std::string first(1, signs[at % signs.size()]);
        const std::size_t second = at / signs.size();
        const std::string type = second == 0 ? first : first + signs[second - 1];
        if (type.size() > 1 || of_session.find(type) == std::string::npos) {
            types.push_back(type);
        }
    }
    return types;
}

// The session looks into none of them.
TEST_CASE("every type is counted") {
    Scene scene;
    Talk talk(scene);
    talk.settle();
    int number = 2;
    for (const std::string &type : types_of_the_application()) {
        talk.say(message_of(type, ++number, "117=q|58=|"));
        check_calls({fmt::format("received {}", number), fmt::format("expects {}", number + 1)},
                    std::exchange(scene.book.calls, {}), "35=" + type);
        check(talk.ear.messages.empty() && !talk.ear.ends, "something is said to 35=" + type);
    }
}

TEST_CASE("times of every precision") {
    for (const std::string fraction : {"", ".000", ".123456", ".123456789", ".123456789012"}) {
        Scene scene;
        Talk talk(scene);
        talk.settle();
        const std::string time = nine + fraction;
        talk.say(message_of("S", 3, "", time) + message_of("S", 4, "43=Y|122=" + time + "|", time) +
                 message_of("0", 5, "", time));
        check_calls({"received 3", "expects 4", "received 4", "expects 5", "expects 6"},
                    scene.book.calls, "52=" + time);
    }
}

// A TestReqID comes back byte for byte, whatever its bytes are.
TEST_CASE("any byte is repeated") {
    std::string any = "1181=1";
    for (int byte = 2; byte < 256; ++byte) {
        any += byte == '|' ? 'x' : static_cast<char>(byte);
    }
    any += std::string(1, '\0');
    Scene scene;
    Talk talk(scene);
    talk.settle();
    talk.say(framed(with_soh("35=1|49=F|56=VENUE|34=3|52=" + nine + "|") + "112=" + any + "\x01"));
    check(talk.ear.messages.at(0).find("|112=" + any + "|10=") != std::string::npos, "another 112");
    check_calls({"expects 4"}, scene.book.calls, "a TestRequest with any bytes");
}

// However it comes, and whatever comes with it.
TEST_CASE("byte by byte") {
    Scene scene;
    Talk talk(scene);
    const std::string all = logon_of() + message_of("0", 2, "112=2|") +
                            message_of("S", 3, "58=a|b|") + message_of("S", 4, "");
    for (const char byte : all) {
        talk.say(std::string(1, byte));
    }
    check_calls({"1 A", "2 1", "3 3"}, talk.ear.heard(), "what is said");
    check_calls({"accepted 1", "expects 2", "expects 3", "expects 4", "kept 3 3", "received 4",
                 "expects 5"},
                scene.book.calls, "a Logon and messages, byte by byte");
}

// Messages behind garbage, in whatever pieces: none is hidden by it, and none is made of it.
TEST_CASE("behind garbage") {
    const std::string right = message_of("S", 3, "");
    const std::string garbage[] = {
        "noise",
        right.substr(0, 20),
        right.substr(0, right.size() - 4) + with_soh("999|"),
        with_soh("8=FIXT.1.1|9=x|"),
        with_soh("8=FIXT.1.1|9=5|35=0|10=000|"),
    };
    for (const std::string &noise : garbage) {
        for (const std::size_t piece : {std::size_t{1}, std::size_t{7}, std::size_t{4096}}) {
            Scene scene;
            Talk talk(scene);
            talk.settle();
            const std::string all = noise + right;
            for (std::size_t at = 0; at < all.size(); at += piece) {
                talk.say(all.substr(at, piece));
            }
            check_calls({"received 3", "expects 4"}, scene.book.calls, with_bars(noise));
            check(talk.ear.messages.empty(), "something is said to " + with_bars(noise));
        }
    }
}

// Ahead of a gap a ResendRequest is done; but only a message that is F's.
TEST_CASE("request ahead that is not the firms") {
    Scene scene;
    Talk talk(scene);
    talk.settle();
    talk.say(framed(with_soh("35=2|49=G|56=VENUE|34=7|52=" + nine + "|7=1|16=0|")));
    check_calls({"3 3", "4 5"}, talk.ear.heard(), "another's ResendRequest");
    check_calls({"kept 3 3"}, scene.book.calls, "another's ResendRequest");
}

// ---------------------------------------------------------------- the ends of all numbers

// It asks for what is missing, and counts nothing.
TEST_CASE("logon under the last number") {
    Scene scene;
    {
        Talk talk(scene);
        talk.say(logon_of(999999999));
        check_calls({"1 A", "2 2", "3 1"}, talk.ear.heard(), "what it is answered");
    }
    check_calls({"accepted 1", "ended 1"}, scene.book.calls, "a Logon under the last number");
    Talk right(scene);
    right.say(logon_of(1, "", "20250314-09:00:00.001"));
    check_calls({"4 A", "5 1"}, right.ear.heard(), "the right one");
}

// A firm that has used up the numbers of the day has no session for the rest of it; no number
// wraps.
TEST_CASE("after the last number") {
    Scene scene;
    Talk talk(scene);
    talk.settle();
    talk.say(message_of("4", 3, "123=Y|36=999999990|"));
    talk.say(message_of("S", 999999990, "") + message_of("S", 999999991, ""));
    check(talk.ear.ends, "the session goes on");
    check_calls({"expects 999999990", "received 999999990", "expects 999999991", "ended 1"},
                scene.book.calls, "the last number");
    talk.end();
    Talk again(scene);
    again.say(logon_of(999999991));
    check(again.ear.ends && again.ear.messages.empty(), "there is a session again");
    scene.book.calls.clear();
    for (std::uint32_t number = 1; number < 9; ++number) {
        scene.give(number);
    }
    check(scene.book.calls.size() <= 8, "more is kept than was given");
}

// The same of the venue's numbers: the last one is used, and none behind it.
TEST_CASE("given under the last number") {
    SessionNumbers numbers;
    numbers.expected = numbers.next = 999999990;
    numbers.is_one_free = false;
    Scene scene(&numbers);
    scene.give(1);
    scene.give(2);
    check_calls({"kept 999999990 AI"}, scene.book.calls, "what is kept");
}

// ---------------------------------------------------------------- what a session promises

// What is kept under a number is the venue's, byte for byte, and what leaves again is the same.
TEST_CASE("what leaves is what was given") {
    Scene scene;
    Talk talk(scene);
    talk.settle();
    scene.give(1, "AI", "131=R1|117=a|60=20250314-09:00:00.000|297=0|58=x|");
    const std::string body = "|1181=1|131=R1|117=a|60=20250314-09:00:00.000|297=0|58=x|10=";
    check_calls({"3 AI"}, talk.ear.heard(), "a message of the venue");
    check(talk.ear.last[0].find(body) != std::string::npos, talk.ear.last[0]);
    scene.clock.move(std::chrono::seconds(7));
    talk.say(message_of("2", 3, "7=3|16=3|"));
    check_calls({"3 AI again"}, talk.ear.heard(), "what is sent again");
    const std::string again = talk.ear.last[0];
    check(again.find(body) != std::string::npos, again);
    same<std::string>("20250314-09:00:00.000", value_of(again, 122), "when it was kept");
    same<std::string>("20250314-09:00:07.000", value_of(again, 52), "when it leaves");
}

// Away and back: what the venue gave meanwhile leaves when the firm asks; a gap fill covers the
// rest.
TEST_CASE("given while the firm is away") {
    Scene scene;
    Talk(scene).settle();
    for (std::uint32_t number = 1; number <= 3; ++number) {
        scene.give(number, number == 2 ? "3" : "AI", number == 2 ? "45=2|373=1|" : "297=9|");
    }
    Talk talk(scene);
    talk.say(logon_of(3));
    check_calls({"6 A", "7 1"}, talk.ear.heard(), "what its Logon is answered");
    talk.say(message_of("2", 4, "7=1|16=0|"));
    check_calls(
        {"1 4 again", "3 AI again", "4 3 again", "5 AI again", "6 4 again", "7 4 again", "8 1"},
        talk.ear.heard(), "what it is sent");
    same<std::string>("3", value_of(talk.ear.last[0], 36), "where the first gap fill ends");
}

// A session of what was kept goes on as the first one would have.
TEST_CASE("a restart") {
    SessionNumbers numbers;
    std::map<std::uint32_t, KeptMessage> kept;
    {
        Scene scene;
        Talk talk(scene);
        talk.settle();
        scene.give(1);
        talk.say(message_of("S", 3, "58=a|b|") + message_of("S", 4, ""));
        numbers = scene.book.numbers;
        kept = scene.book.kept;
    }
    Scene scene(&numbers);
    scene.book.kept = kept;
    Talk talk(scene);
    talk.say(logon_of(5));
    check_calls({"5 A", "6 1"}, talk.ear.heard(), "what a Logon is answered");
    talk.say(message_of("2", 6, "7=3|16=4|"));
    check_calls({"3 AI again", "4 3 again"}, talk.ear.heard(), "what is sent again");
    check_calls({"accepted 1", "expects 6", "expects 7"}, scene.book.calls, "what is counted");
}

// An operator's reset: what the firm is not known to have comes again under new numbers.
TEST_CASE("a reset") {
    Scene scene;
    {
        Talk talk(scene);
        talk.settle();
        scene.give(1);
        scene.give(2);
        talk.say(message_of("S", 3, "58=a|b|"));
        talk.ear.heard();
        scene.session().reset(1);
        talk.serve();
        check(talk.ear.ends, "the connection stays");
        check_calls({}, talk.ear.heard(), "what it is told");
        same(0, scene.book.logons, "sessions that stand");
    }
    scene.clock.move(std::chrono::minutes(1));
    scene.book.calls.clear();
    {
        Talk talk(scene);
        talk.say(logon_of(4, "", "20250314-09:01:00"));
        check_calls({refusal_words::begin}, scene.book.refusals, "a Logon with old numbers");
    }
    Talk talk(scene);
    talk.say(logon_of(1, "", "20250314-09:01:00"));
    check_calls({"accepted 2", "expects 2"}, scene.book.calls, "the Logon after a reset");
    const Calls answered = talk.ear.heard();
    talk.say(message_of("2", 2, "7=1|16=0|", "20250314-09:01:00"));
    const Calls heard = talk.ear.heard();
    check(std::ranges::count(heard, "2 AI again copy") == 1 &&
              std::ranges::count(heard, "3 AI again copy") == 1,
          fmt::format("{} and {}", answered, heard));
    // 1 was that of the Logout, 4 the answer, and 5 the first TestRequest.
    same<std::string>("6 1", heard.back(), "what it is asked behind them");
    talk.say(message_of("0", 3, "112=6|", "20250314-09:01:00"));
    talk.end();
    // It has answered behind the copies, so that nothing is owed, and it is told why.
    Talk wrong(scene);
    wrong.say(message_of("A", 4, "98=1|108=30|553=F|554=x|1137=9|", "20250314-09:01:00"));
    check_calls({"7 5"}, wrong.ear.heard(), "what a Logon is told that is refused");
    wrong.end();
    Talk right(scene);
    right.say(logon_of(4, "", "20250314-09:01:00"));
    check_calls({"8 A", "9 1"}, right.ear.heard(), "its numbers go on");
}

// Nothing is kept: so a Logon is told why it is refused, before anything else is answered.
TEST_CASE("a reset that leaves nothing") {
    Scene scene;
    {
        Talk talk(scene);
        talk.settle();
        scene.session().reset(1);
        talk.end();
    }
    scene.clock.move(std::chrono::minutes(1));
    {
        Talk talk(scene);
        talk.say(logon_of(1, "", "20250314-09:01:00"));
        check_calls({"1 A", "2 1"}, talk.ear.heard(), "the Logon after a reset");
        talk.end();
    }
    Talk wrong(scene);
    wrong.say(message_of("A", 2, "98=1|108=30|553=F|554=x|1137=9|", "20250314-09:01:00"));
    check_calls({"3 5"}, wrong.ear.heard(), "what a Logon is told that is refused");
}

TEST_CASE("suspended") {
    Scene scene;
    Talk talk(scene);
    talk.settle();
    scene.session().suspend();
    talk.serve();
    check_calls({"3 5"}, talk.ear.heard(), "what it is told");
    same(0, scene.book.logons, "sessions that stand");
    talk.end();
    Talk again(scene);
    again.say(logon_of(3));
    check_calls({refusal_words::suspended}, scene.book.refusals, "its next Logon");
    again.end();
    scene.session().resume();
    Talk resumed(scene);
    resumed.say(logon_of(3));
    check(std::ranges::count(scene.book.calls, "accepted 2") == 1, "it is not resumed");
    same(1, scene.book.logons, "sessions that stand again");
}

// ---------------------------------------------------------------- connections of one firm

// A host of many threads, which looks whether all comes on the connection that is open.
class Watch final : public SessionHost {
  public:
    Refusal judge(const LogonFacts &facts) override {
        return facts.password == "x" ? Refusal::none : Refusal::wrong_password;
    }
    std::uint32_t logon_accepted(const std::string &, const ConnectionFacts &) override {
        const std::lock_guard lock(mutex_);
        note(open_ == 0);
        return open_ = ++logons_;
    }
    void logon_refused(const std::string &, const ConnectionFacts &, const std::string &) override {
    }
    void connection_ended(const std::string &, std::uint32_t connection,
                          const std::string &) override {
        const std::lock_guard lock(mutex_);
        note(open_ == connection);
        open_ = 0;
    }
    void logged_on(const std::string &) override {}
    void logged_off(const std::string &) override {}
    std::uint64_t put(const std::string &, const SessionEvent &event) override {
        const std::lock_guard lock(mutex_);
        note_numbers(event.numbers);
        if (event.kept) {
            note(kept_.emplace(event.kept->number, *event.kept).second);
        }
        if (event.drops_rejects) {
            std::erase_if(kept_, [](const auto &row) { return is_own(row.second); });
        }
        return 1;
    }
    void wait_stored(std::uint64_t) override {}
    Taken take(const std::string &, const SessionInput &input, const SessionEvent &event) override {
        const std::lock_guard lock(mutex_);
        note(open_ != 0 && input.receipt.connection == open_ && input.number > last_);
        last_ = input.number;
        ++messages_;
        note_numbers(event.numbers);
        return {};
    }
    void all_received() override {}
    std::vector<KeptMessage> kept_messages(const std::string &, std::uint32_t from,
                                           std::size_t limit) override {
        const std::lock_guard lock(mutex_);
        std::vector<KeptMessage> found;
        for (auto at = kept_.lower_bound(from); at != kept_.end() && found.size() < limit; ++at) {
            found.push_back(at->second);
        }
        return found;
    }

    std::uint32_t expected() const { return expected_; }
    // How often something was not as it has to be; how many Logons and messages there were.
    std::tuple<int, std::uint32_t, int> found() const { return {wrong_, logons_, messages_}; }

  private:
    void note(bool holds) { wrong_ += holds ? 0 : 1; }
    // No number is used twice, and none is taken back.
    void note_numbers(const SessionNumbers &now) {
        note(now.next >= next_ && now.expected >= expected_);
        next_ = now.next;
        expected_ = now.expected;
    }

    std::mutex mutex_;
    std::map<std::uint32_t, KeptMessage> kept_;
    std::uint32_t open_ = 0;
    std::uint32_t logons_ = 0;
    std::uint32_t last_ = 0;
    std::uint32_t next_ = 2;
    int messages_ = 0;
    int wrong_ = 0;
    std::atomic<std::uint32_t> expected_{1};
};

// What is said to a peer of many threads.
class SafeEar final : public Transport {
  public:
    bool send(std::string_view) override { return !ends_; }
    void finish(const std::string &) override { ends_ = true; }
    void shut(const std::string &) override { ends_ = true; }
    bool is_ending() const override { return ends_; }
    void wake() override {}
    ConnectionFacts facts() const override { return {"192.0.2.1:1", "", false}; }

  private:
    std::atomic<bool> ends_{false};
};

// A message that fits, or nearly.
std::string drawn_message(std::mt19937 &random, int number) {
    switch (random() % 8) {
    case 0:
        return message_of("1", number, "112=x|");
    case 1:
        return message_of("2", number, "7=1|16=0|");
    case 2:
        return message_of("4", number, fmt::format("123=Y|36={}|", number + 2));
    case 3:
        return message_of(random() % 4 == 0 ? "5" : "0", number, "");
    case 4:
        return message_of("S", number, "58=a|b|");
    default:
        return message_of("S", number + static_cast<int>(random() % 8 == 0), "");
    }
}

// One connection: a Logon, which may be wrong or have to wait, and some messages.
void drawn_connection(Sessions &sessions, EngineEvents &events, const Watch &host,
                      std::mt19937 &random) {
    SafeEar ear;
    Conversation talk(sessions, events, ear);
    const auto say = [&](const std::string &bytes) {
        talk.hear(bytes.data(), bytes.size(), at_nine);
        talk.serve();
    };
    const auto number = [&] { return static_cast<int>(host.expected()); };
    say(message_of("A", number(),
                   fmt::format("98=0|108=30|553=F|554={}|1137=9|", random() % 6 == 0 ? "y" : "x")));
    for (int turn = 0; turn < 20 && !ear.is_ending(); ++turn) {
        if (talk.waits()) {
            std::this_thread::yield();
            talk.look_again();
        } else if (talk.is_admitted()) {
            say(drawn_message(random, number()));
            talk.tick();
            talk.serve();
        }
    }
    talk.end("the peer closed");
}

// Five that come again and again, while the venue delivers and a day ends: one at a time is heard,
// and each number is used once. To be run under the thread sanitizer, too.
TEST_CASE("many connections at one time") {
    const StillClock clock;
    Watch host;
    NoEvents events;
    SessionStart start;
    start.firm = "F";
    start.date = today;
    start.host = &host;
    Sessions sessions({start}, events);
    std::atomic<bool> is_over{false};
    std::thread venue([&] {
        Delivery delivery;
        delivery.session = delivery.firm = "F";
        delivery.type = "AI";
        for (int number = 1; !is_over; ++number) {
            delivery.wire = framed(with_soh(fmt::format("35=AI|1181={}|297=9|", number)));
            sessions.deliver(delivery);
            if (number % 50 == 0) {
                sessions.log_out("the day is over");
            }
            std::this_thread::sleep_for(std::chrono::microseconds(200));
        }
    });
    std::vector<std::thread> peers;
    for (unsigned seed = 1; seed <= 5; ++seed) {
        peers.emplace_back([&, seed] {
            std::mt19937 random(seed);
            for (int connection = 0; connection < 200; ++connection) {
                drawn_connection(sessions, events, host, random);
            }
        });
    }
    for (std::thread &peer : peers) {
        peer.join();
    }
    is_over = true;
    venue.join();
    const auto [wrong, logons, messages] = host.found();
    same(0, wrong, "how often two were heard, or a number was used twice");
    check(logons > 20 && messages > 100,
          fmt::format("only {} Logons and {} messages", logons, messages));
}

} // namespace

} // namespace gateway::tests
