// What wrong passwords cost an address, and which addresses a range has.
#define DOCTEST_CONFIG_IMPLEMENT_WITH_MAIN
#include <doctest/doctest.h>

#include "check.h"
#include "config/address_range.h"
#include "firms/password_guesses.h"

#include <chrono>

namespace gateway::tests {

namespace {

using namespace std::chrono_literals;

// Twice as long each time, up to a quarter of a second; a minute later it begins anew. Other
// addresses wait for nothing.
TEST_CASE("cost of guesses") {
    PasswordGuesses::Clock::time_point now{1h};
    PasswordGuesses guesses([&now] { return now; });
    check(guesses.judged_from("a") <= now, "an address that has not guessed waits");
    for (const auto pause : {10ms, 20ms, 40ms, 80ms, 160ms, 250ms, 250ms, 250ms, 250ms}) {
        guesses.wrong("a");
        check(guesses.judged_from("a") == now + pause,
              fmt::format("no pause of {} ms", pause.count()));
    }
    check(guesses.judged_from("b") <= now, "another address waits");
    same<std::size_t>(9, guesses.wrong_of("a"), "wrong ones");
    now += 1min;
    same<std::size_t>(10, guesses.wrong("a"), "wrong ones within a minute");
    now += 1min + 1ms;
    same<std::size_t>(1, guesses.wrong("a"), "wrong ones after more than a minute");
}

// Of more addresses than are remembered none is refused, and memory has its bound.
TEST_CASE("many addresses") {
    PasswordGuesses guesses;
    for (int number = 0; number < 10000; ++number) {
        guesses.wrong(fmt::format("192.0.2.{}", number));
    }
    same<std::size_t>(2, guesses.wrong("192.0.2.9999"), "of the last one");
}

TEST_CASE("ranges") {
    struct Case {
        const char *range;
        const char *address;
        bool has;
    };
    for (const Case &each : {
             Case{"192.0.2.7", "192.0.2.7", true},
             Case{"192.0.2.7", "192.0.2.8", false},
             Case{"192.0.2.0/24", "192.0.2.255", true},
             Case{"192.0.2.0/24", "192.0.3.0", false},
             Case{"192.0.2.128/25", "192.0.2.127", false},
             Case{"0.0.0.0/0", "203.0.113.9", true},
             Case{"192.0.2.0/24", "192.0.2.7:4000", false},
             Case{"192.0.2.0/24", "", false},
         }) {
        const auto range = address_range_of(each.range);
        check(range && range->has(each.address) == each.has,
              fmt::format("{} and {}", each.range, each.address));
    }
    for (const char *none : {"", "192.0.2", "192.0.2.0/33", "192.0.2.0/", "192.0.2.0/-1",
                             "192.0.2.0/8x", "192.0.2.1/24", "host", "::1", " 192.0.2.1"}) {
        check(!address_range_of(none), fmt::format("`{}` is a range", none));
    }
}

} // namespace

} // namespace gateway::tests
