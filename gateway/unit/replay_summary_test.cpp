// What a start takes from entries.
#define DOCTEST_CONFIG_IMPLEMENT_WITH_MAIN
#include <doctest/doctest.h>

#include "check.h"
#include "venue/replay_summary.h"

#include <cstdint>
#include <string>
#include <string_view>
#include <vector>

#include <fmt/format.h>

namespace gateway::tests {

namespace {

constexpr std::string_view reset = "# act 09:00:00.000 root(0) reset-session DLR1";
constexpr std::string_view release = "# act 09:00:00.000 root(0) release DLR1";

// An entry: a note, or a message of DLR1 with a number of its session.
struct Line {
    std::uint32_t number = 0;
    std::string_view note;
};

ReplaySummary replay_of(const std::vector<Line> &lines) {
    ReplaySummary replayed;
    std::uint32_t place = 0;
    for (const Line &line : lines) {
        Entry entry;
        entry.place = ++place;
        entry.hash = sha256(fmt::format("{}", place));
        entry.line = line.note.empty() ? "hex DLR1 09:00:00.000 00" : line.note;
        if (line.note.empty()) {
            entry.firm = "DLR1";
            entry.number = line.number;
        }
        replayed.add(entry);
    }
    return replayed;
}

TEST_CASE("what firms have there") {
    const ReplaySummary replayed =
        replay_of({{2, ""}, {7, ""}, {0, "# act 09:00:00.000 root(0) halt"}});
    const ReplaySummary::Came &found = replayed.came().at("DLR1");
    check(found.entries == 2 && found.last_number == 7 && found.bytes == 48, "those of DLR1");
    check(found.last_place == 2 && found.fell_at == 0, "where they are");
    check(!replayed.came().contains("DLR2"), "DLR2 has none");
    check(replayed.notes() ==
              std::vector<ReplaySummary::Note>{{3, "# act 09:00:00.000 root(0) halt"}},
          "the act, and its place");
}

TEST_CASE("where numbers fall") {
    const ReplaySummary replayed = replay_of({{2, ""}, {3, ""}, {0, reset}, {2, ""}, {3, ""}});
    const ReplaySummary::Came &found = replayed.came().at("DLR1");
    check(found.fell_at == 4 && found.fell_behind == 2, "behind the reset");
    check(found.last_place == 5 && found.last_number == 3, "the last one");
}

TEST_CASE("what operators ordered of a session") {
    const ReplaySummary replayed = replay_of({{2, ""}, {0, reset}, {0, release}});
    const auto orders = replayed.orders_of("DLR1");
    same<std::size_t>(2, orders.size(), "orders");
    check(orders[0].order == FirmOrder::reset && orders[0].place == 2, "the reset");
    check(orders[1].order == FirmOrder::release && orders[1].place == 3, "the release");
    check(replayed.orders_of("DLR2").empty(), "another firm's");
}

TEST_CASE("what was fed ends with one entry") {
    const ReplaySummary replayed = replay_of({{2, ""}, {3, ""}});
    Entry last;
    last.place = 2;
    last.hash = sha256("2");
    check(replayed.ends_with(last), "the last one");
    last.hash = sha256("1");
    check(!replayed.ends_with(last), "another one");
    check(!ReplaySummary().ends_with(last), "none");
    check(ReplaySummary().ends_with(Entry{}), "a log that has begun");
}

} // namespace

} // namespace gateway::tests
