// What the venue notes beside its messages, and what of it a firm is told: the names of
// docs/MARKET.md, the words of fix/reasons.txt, and nothing else.
#define DOCTEST_CONFIG_IMPLEMENT_WITH_MAIN
#include <doctest/doctest.h>

#include "base/digest.h"
#include "check.h"
#include "common/frame.h"
#include "log/reasons.h"
#include "log/records.h"

#include <stdexcept>
#include <string>
#include <tuple>
#include <vector>

namespace gateway::tests {

namespace {

constexpr const char *date = "20250314";
constexpr std::uint32_t number = 7; // of DLR1's message

const Reasons &two_reasons() {
    static const Reasons reasons =
        read_reasons("# two\n\nClosed the request has ended\nLifted too late\n");
    return reasons;
}

std::string told(const std::string &line) {
    return with_bars(told_by(read_venue_note(line), "DLR1", number, two_reasons(), date));
}

// What is told of a line, or why nothing is.
std::string refusal_of(const std::string &line) {
    try {
        return told(line);
    } catch (const std::runtime_error &fault) {
        return fault.what();
    }
}

void is_refused(const std::string &line, const std::string &words) {
    const std::string refusal = refusal_of(line);
    check(refusal.find(words) != std::string::npos, fmt::format("`{}`: {}", line, refusal));
}

TEST_CASE("what firms are told") {
    same<std::string>("58=the request has ended", told("why DLR1 7 Closed"), "a reason");
    same<std::string>("58=too late", told("why DLR1 7 Lifted"), "another");
    same<std::string>("1003=20250314-INV1-DLR1-12", told("trade DLR1 7 20250314-INV1-DLR1-12"),
                      "a trade of a dealer");
    same<std::string>("1003=20250314-DLR1-B-1", told("trade DLR1 7 20250314-DLR1-B-1"),
                      "a trade of an investor");
}

TEST_CASE("what firms are not told") {
    is_refused("why DLR2 7 Closed", "that is of DLR2's message 7");
    is_refused("why DLR1 8 Closed", "that is of DLR1's message 8");
    for (const char *name : {"closed", "Closed ", "Unknown", "",
                             "Closed\x01"
                             "58=x"}) {
        is_refused(fmt::format("why DLR1 7 {}", name), "has no text");
    }
    for (const char *line : {"why", "why DLR1", "why DLR1 x Closed", "why DLR1 -7 Closed"}) {
        is_refused(line, "no form");
    }
    for (const char *name : {"20250315-INV1-DLR1-1", "20250314-INV1-DLR2-1", "20250314-DLR1-DLR1-1",
                             "20250314-INV1-DLR1-0", "20250314-INV1-DLR1-01", "20250314-INV1-DLR1-",
                             "20250314-INV1-DLR1", "20250314-INV1-DLR1-1-1", "20250314-inv1-DLR1-1",
                             "20250314-INV123456-DLR1-1", "20250314-INV1-DLR1-1234567890",
                             "20250314--DLR1-1", "", "Closed",
                             "20250314-INV1-DLR1-1\x01"
                             "58=x",
                             "20250314-INV1-DLR1-1 "}) {
        is_refused(fmt::format("trade DLR1 7 {}", name), "is none of DLR1's");
    }
}

TEST_CASE("which tables are none") {
    const std::string longest(100, 'x');
    same<std::size_t>(1, read_reasons("Name " + longest).size(), "the longest words");
    for (const std::string &text :
         {std::string("Closed"), std::string("Closed "), std::string(" Closed"),
          "Name " + longest + "x", std::string("Closed a|b"), std::string("Closed a\tb"),
          std::string("Closed a\x01"
                      "b"),
          std::string("Closed \xc3\xa9"), std::string("Na-me words"), std::string("Na{me words"),
          std::string("Na[me words"), std::string("A one\nA two"), std::string("A one\nB one"),
          std::string(41, 'N') + " words"}) {
        try {
            read_reasons(text);
        } catch (const std::runtime_error &) {
            continue;
        }
        check(false, fmt::format("a table is taken: {}", text));
    }
}

TEST_CASE("entry 0 has the table") {
    Day day;
    day.version = "v";
    day.configuration = "version = 1\n";
    day.reasons = two_reasons();
    const std::string line = line_of(day);
    check(line.find("\nreason Closed the request has ended\nreason Lifted too late\n%%\nversion") !=
              std::string::npos,
          line);
    check(day_of(line).reasons == two_reasons(), "entry 0 is read otherwise");
    check(line.find("\ngateway ") == std::string::npos, "a gateway without a name has one");
    day.gateway = "0.9 (of north)";
    check(line_of(day).find("\ngateway 0.9 (of north)\n") != std::string::npos, line_of(day));
    check(day_of(line_of(day)).gateway == "0.9 (of north)", "the gateway is read otherwise");
    day.gateway.clear();
    day.reasons.clear();
    check(day_of(line_of(day)).reasons.empty(), "a day without notes has reasons");
    for (const char *wrong : {"reason Closed", "reason ", "reason Closed a|b"}) {
        std::string other = line;
        other.replace(other.find("reason Lifted"), std::string("reason Lifted too late").size(),
                      wrong);
        try {
            day_of(other);
        } catch (const std::runtime_error &) {
            continue;
        }
        check(false, fmt::format("entry 0 is taken with `{}`", wrong));
    }
}

TEST_CASE("entry 0 that was changed is none") {
    Day day;
    day.version = "1.2 (abc)";
    day.program = sha256("program");
    day.configuration = "version = 1\n";
    const std::string line = line_of(day);
    const Day read = day_of(line);
    check(read.version == day.version && read.program == day.program && read.venue.empty() &&
              read.configuration == day.configuration,
          "it is read otherwise");
    day.venue = "north";
    check(day_of(line_of(day)).venue == "north", "its venue is read otherwise");
    const std::string digits = text_of(day.program);
    const std::string no_digits = "entry 0: a SHA-256 has 64 small hexadecimal digits";
    for (const auto &[was, is, told] :
         std::vector<std::tuple<std::string, std::string, std::string>>{
             {"venue -\n", "", "entry 0 has no line `venue`"},
             {"venue -\n", "venue\n", "entry 0 has no line `venue`"},
             {"version 1.2 (abc)\n", "", "entry 0 has no line `version`"},
             {"program ", "program", "entry 0 has no line `program`"},
             {digits, digits.substr(1), no_digits},
             {"configuration ", "configuration x", no_digits},
             {"%%\n", "", "entry 0 has no line `%%`"},
             {"version = 1", "version = 2",
              "entry 0 was changed: its configuration has another SHA-256"},
             {"version = 1\n", "version = 1\n\n",
              "entry 0 was changed: its configuration has another SHA-256"},
         }) {
        std::string other = line;
        CHECK_THROWS_WITH_AS(day_of(other.replace(other.find(was), was.size(), is)), told.c_str(),
                             std::runtime_error);
    }
}

TEST_CASE("the built in table") {
    check(!gateway::built_in_reasons().empty(), "it is empty");
}

TEST_CASE("the flag") {
    const std::vector<std::string> plain{"venue", "live", "--marks"};
    const std::vector<std::string> noting{"venue", "live", "--marks", "--notes"};
    check(with_notes(plain, true) == noting && with_notes(noting, true) == noting, "with notes");
    check(with_notes(noting, false) == plain && with_notes(plain, false) == plain, "without");
}

} // namespace

} // namespace gateway::tests
