// Tests how often the gateway tells of what anybody can cause: ten times a minute of each kind, and
// the rest is counted. And how a stranger's text looks in a line.
#define DOCTEST_CONFIG_IMPLEMENT_WITH_MAIN
#include <doctest/doctest.h>

#include "base/limiter.h"
#include "base/printable.h"
#include "check.h"
#include "health/operator_events.h"

#include <sstream>

#include <spdlog/sinks/ostream_sink.h>

namespace gateway::tests {

namespace {

using namespace std::chrono_literals;

// A clock that goes on when it is told to.
struct Time {
    Limiter::Clock::time_point now{};
    Limiter limiter{[this] { return now; }};

    // How many of so many are told.
    unsigned told_of(unsigned count, const std::string &kind) {
        unsigned told = 0;
        for (unsigned each = 0; each < count; ++each) {
            told += limiter.ask(kind).told ? 1 : 0;
        }
        return told;
    }
};

TEST_CASE("ten a minute") {
    Time time;
    same(10U, time.told_of(100, "a"), "of a hundred at once");
    same(10U, time.told_of(15, "b"), "of another kind");
    time.now += 59s;
    same(0U, time.told_of(5, "a"), "before the minute is over");
    time.now += 1s;
    const Limiter::Answer answer = time.limiter.ask("a");
    check(answer.told, "none is told after a minute");
    same(95U, answer.left_out, "left out before it");
    same(0U, time.limiter.ask("a").left_out, "left out after that");
}

// Whatever minute is looked at: one a second for ten minutes.
TEST_CASE("any minute") {
    Time time;
    std::deque<int> told;
    for (int second = 0; second < 600; ++second) {
        if (time.limiter.ask("a").told) {
            told.push_back(second);
        }
        time.now += 1s;
    }
    check(told.size() > 90, fmt::format("{} are told of ten minutes", told.size()));
    for (std::size_t at = 10; at < told.size(); ++at) {
        check(told[at] - told[at - 10] >= 60, fmt::format("eleven up to second {}", told[at]));
    }
}

// Nothing more of a kind comes, and its count is told all the same: once, and as one of the ten.
TEST_CASE("the rest") {
    Time time;
    time.told_of(12, "a");
    time.told_of(10, "b");
    check(time.limiter.rest().empty(), "the rest is told at once");
    time.now += 60s;
    const auto rest = time.limiter.rest();
    same<std::size_t>(1, rest.size(), "kinds of which some were left out");
    check(rest[0].kind == "a" && rest[0].left_out == 2, "the rest is another");
    same(9U, time.told_of(20, "a"), "beside the rest");
    const auto last = time.limiter.last_rest();
    check(last.size() == 1 && last[0].left_out == 11, "the last rest is another");
    check(time.limiter.last_rest().empty(), "the last rest is told twice");
}

// Whoever has always another kind.
TEST_CASE("many kinds") {
    Time time;
    unsigned told = 0;
    for (int kind = 0; kind < 100'000; ++kind) {
        told += time.limiter.ask(std::to_string(kind)).told ? 1 : 0;
    }
    check(told <= 64 * 10, fmt::format("{} are told of as many kinds", told));
    // The first of 63 kinds, and ten of the others.
    same(73U, told, "told of as many kinds");
}

TEST_CASE("texts") {
    same<std::string>("a|b'c?d?",
                      printable("a\x01"
                                "b\"c\nd\xff",
                                20),
                      "a text");
    same<std::string>("abcdef", printable("abcdef", 6), "one that fits");
    same<std::string>("abc...", printable("abcdefg", 6), "one that does not");
    same<std::string>("ab", printable("abc", 2), "one without room for dots");
}

// Lines about strangers, as the operator reads them.
TEST_CASE("lines") {
    std::ostringstream written;
    auto events = std::make_shared<spdlog::logger>(
        "test", std::make_shared<spdlog::sinks::ostream_sink_mt>(written));
    events->set_pattern("%Y-%m-%dT%H:%M:%S.%eZ %l %v");
    Metrics metrics;
    OperatorEvents told(metrics, events);
    unsigned strangers = 0;
    told.tell_strangers_to([&](const ConnectionFacts &, const std::string &) { ++strangers; });
    const ConnectionFacts facts{"[2001:db8:1111:2222:3333:4444:5555:6666]:65535",
                                "CCC\n\x1b[2K" + std::string(5000, 'C'), true};
    for (int count = 0; count < 1000; ++count) {
        told.stranger(facts, "too many strangers of an address", std::string(9000, '\n'));
        told.logon_refused("DEALERS1", facts, "wrong password");
    }
    told.tell_last_rest();
    same(1000U, strangers, "strangers that the log is told of");
    std::istringstream lines(written.str());
    unsigned count = 0;
    for (std::string line; std::getline(lines, line); ++count) {
        check(line.size() <= 200, fmt::format("a line of {} bytes", line.size()));
    }
    same(22U, count, "lines");
    const std::string text = written.str();
    for (const char *part :
         {"refused what=\"wrong password\" firm=DEALERS1 address=[2001:db8:",
          "left out what=\"wrong password\" lines=990", "certificate=\"CCC??[2KC"}) {
        check(text.find(part) != std::string::npos, std::string("no line has ") + part);
    }
}

TEST_CASE("each event is a line, and is counted") {
    std::ostringstream written;
    auto events = std::make_shared<spdlog::logger>(
        "test", std::make_shared<spdlog::sinks::ostream_sink_mt>(written));
    events->set_pattern("%l %v");
    Metrics metrics;
    OperatorEvents told(metrics, events);
    told.refused("no request", "a\nb");
    told.dropped("no message", "");
    told.may_have_lost_store("DLR1", NumberClimb{1, 92, 91});
    told.logon_refused("DLR1", {"192.0.2.1:7", "", false}, "wrong password");
    told.stranger({"192.0.2.1:7", "CN", true}, "no firm", "x");
    told.delivered(Delivery());
    same<std::string>(
        "warning refused what=\"no request\" text=\"a?b\"\n"
        "warning dropped what=\"no message\"\n"
        "warning may have lost its store from=1 to=92 refused=91 firm=DLR1\n"
        "warning refused what=\"wrong password\" firm=DLR1 address=192.0.2.1:7\n"
        "warning refused what=\"no firm\" address=192.0.2.1:7 certificate=\"CN\" text=\"x\"\n",
        written.str(), "lines");
    const std::string counts = metrics.text();
    for (const char *line : {"mireseason_refused_total{reason=\"no request\"} 1\n",
                             "mireseason_refused_total{reason=\"wrong password\"} 1\n",
                             "mireseason_refused_total{reason=\"no firm\"} 1\n",
                             "mireseason_dropped_total{reason=\"no message\"} 1\n",
                             "mireseason_handed_over_seconds_count 1\n"}) {
        check(counts.find(line) != std::string::npos, line);
    }
}

} // namespace

} // namespace gateway::tests
