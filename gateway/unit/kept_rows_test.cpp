// Tests which stretch of a session's numbers is in memory while they leave.
#define DOCTEST_CONFIG_IMPLEMENT_WITH_MAIN
#include <doctest/doctest.h>

#include "check.h"
#include "session/kept_rows.h"

#include <cstdint>
#include <vector>

namespace gateway::tests {

namespace {

KeptMessage message(std::uint32_t number) {
    KeptMessage kept;
    kept.number = number;
    kept.frame = std::to_string(number);
    return kept;
}

// So many of them, each `apart` from the next.
std::vector<KeptMessage> messages(std::uint32_t first, std::size_t count, std::uint32_t apart) {
    std::vector<KeptMessage> all;
    for (std::size_t at = 0; at < count; ++at) {
        all.push_back(message(first + static_cast<std::uint32_t>(at) * apart));
    }
    return all;
}

// What is told of a number: `-` where it has to be read, or what is kept, `nothing` for none.
std::string told(const KeptRows &rows, std::uint64_t number, std::uint64_t end) {
    const KeptRows::Found found = rows.find(number, end);
    if (!found.is_known) {
        return "-";
    }
    return found.row == nullptr ? "nothing" : found.row->message.frame;
}

} // namespace

TEST_CASE("nothing is known at first") {
    KeptRows rows;
    rows.forget(10);
    same<std::string>("-", told(rows, 9, 10), "a number before");
    same<std::string>("-", told(rows, 10, 11), "one that was not used");
}

TEST_CASE("what is kept from now on is at hand") {
    KeptRows rows;
    rows.forget(10);
    const KeptMessage kept = message(10);
    rows.extend(10, 11, &kept, 7);
    rows.extend(11, 12, nullptr, 8);
    same<std::string>("10", told(rows, 10, 12), "what is kept");
    same<std::uint64_t>(7, rows.find(10, 12).row->ticket, "its commit");
    same<std::string>("nothing", told(rows, 11, 12), "a number without anything");
    const KeptMessage later = message(13);
    rows.extend(13, 14, &later, 9);
    same<std::string>("-", told(rows, 13, 14), "what does not follow");
}

TEST_CASE("what is read stands in front of what came meanwhile") {
    KeptRows rows;
    rows.forget(6);
    const KeptMessage kept = message(6);
    rows.extend(6, 7, &kept, 1);
    rows.put(2, 5, messages(2, 5, 1)); // 6 was read, too
    for (std::uint64_t number = 2; number <= 6; ++number) {
        same(std::to_string(number), told(rows, number, 7), "each number");
    }
    same<std::uint64_t>(1, rows.find(6, 7).row->ticket, "that is the one that came");
}

// Where more is to be read, what came meanwhile is read again behind it.
TEST_CASE("a whole chunk ends with its last number") {
    KeptRows rows;
    rows.forget(5000);
    const KeptMessage kept = message(5000);
    rows.extend(5000, 5001, &kept, 1);
    rows.put(2, 4999, messages(2, KeptRows::chunk, 3));
    const std::uint32_t last = 2 + 3 * (static_cast<std::uint32_t>(KeptRows::chunk) - 1);
    same(last, rows.through(), "the end of the stretch");
    same<std::string>("nothing", told(rows, 3, 6000), "between two");
    same<std::uint64_t>(5, rows.find(3, 6000).next, "the next of them");
    same(std::to_string(last), told(rows, last, 6000), "the last one");
    same<std::string>("-", told(rows, last + 1, 6000), "what is behind it");
    same<std::string>("-", told(rows, 5000, 5001), "what came meanwhile");
}

// A gap fill may cover a number only where it is known that nothing is kept under it.
TEST_CASE("an end that is not known is to be read") {
    KeptRows rows;
    rows.forget(4);
    rows.put(2, 3, messages(2, 1, 1));
    same<std::string>("nothing", told(rows, 3, 4), "up to the end of what is known");
    same<std::string>("-", told(rows, 3, 5), "beyond it");
}

TEST_CASE("what has left is dropped, and no more than so much waits") {
    KeptRows rows;
    rows.forget(2);
    const std::uint32_t many = 6 * static_cast<std::uint32_t>(KeptRows::chunk);
    for (std::uint32_t number = 2; number < many; ++number) {
        const KeptMessage kept = message(number);
        rows.extend(number, number + 1, &kept, 0);
    }
    check(rows.through() < many - 1, "all of it is in memory");
    rows.drop_before(100);
    same<std::string>("-", told(rows, 99, 100), "what has left");
    same<std::string>("100", told(rows, 100, 101), "the next one");
}

} // namespace gateway::tests
