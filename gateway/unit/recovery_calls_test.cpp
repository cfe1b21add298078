// Compares the calls of session_recovery.h, by whichever implementation is linked, with the second
// implementation: on the days that a model of the rules drew.
#define DOCTEST_CONFIG_IMPLEMENT_WITH_MAIN
#include <doctest/doctest.h>

#include "recovered_cases.h"
#include "recovery/session_recovery.h"

#include <algorithm>
#include <cstring>
#include <functional>
#include <set>
#include <sstream>
#include <string>
#include <tuple>
#include <vector>

namespace session_model::tests {

namespace {

RunningHash running(const Hash &bytes) {
    RunningHash hash{};
    static_assert(sizeof hash == sizeof bytes);
    std::memcpy(&hash, bytes.data(), sizeof hash);
    return hash;
}

NoteNumbers numbers_of(const RecoveredNote &note) {
    NoteNumbers numbers{};
    numbers.epoch = note.epoch;
    numbers.number = note.number;
    numbers.expected = note.expected;
    numbers.had = note.had;
    numbers.given = note.given;
    numbers.hash = running(note.hash);
    numbers.moment = note.moment;
    numbers.last_logon = note.last_logon;
    numbers.last = note.last;
    numbers.act = note.act;
    numbers.kind = static_cast<unsigned char>(note.kind);
    numbers.resets = note.resets;
    numbers.is_locked = note.is_locked;
    return numbers;
}

// A day's fold by the calls, as a caller has to make it.
class ByCalls {
  public:
    explicit ByCalls(const Case &of) : of_(of) { session_recovery_begin(&at_); }

    // The line that the file has of the session, or `refused`.
    std::string line() {
        const bool fits = std::ranges::all_of(
            of_.notes, [this](const RecoveredNote &note) { return takes(note); });
        while (fits && at_.given < of_.messages.size()) {
            give();
        }
        return fits && std::ranges::all_of(of_.entries,
                                           [this](const RecoveredEntry &entry) {
                                               return session_recovery_entry(&at_, entry.place,
                                                                             entry.number) == 0;
                                           })
                   ? shown()
                   : "refused";
    }

  private:
    void give() {
        const std::uint64_t next = at_.day.next;
        const RunningHash hash = running(of_.messages[at_.given].hash);
        CHECK(session_recovery_message(&at_, &hash) == recovery_goes_on);
        if (at_.day.next != next) {
            given_.insert(next);
        }
    }
    bool takes(const RecoveredNote &note) {
        while (at_.given < note.given && at_.given < of_.messages.size()) {
            give();
        }
        const bool acts = note.kind == 'R' || (note.kind == 'L' && !note.is_locked);
        if (acts && std::ranges::none_of(
                        of_.acts, [&](const RecoveredAct &act) { return act.place == note.act; })) {
            return false;
        }
        const auto above = std::distance(given_.upper_bound(note.had), given_.end());
        const NoteNumbers numbers = numbers_of(note);
        const Recovered before = at_;
        if (session_recovery_note(&at_, &numbers, static_cast<std::uint64_t>(above)) != 0) {
            CHECK(before.day.next == at_.day.next);
            CHECK(before.day.expected == at_.day.expected);
            return false;
        }
        if (note.kind == 'R') {
            given_.clear();
            for (std::uint64_t number = 2; number < at_.day.next; ++number) {
                given_.insert(number);
            }
        }
        return true;
    }
    std::string shown() const {
        const Day &day = at_.day;
        std::ostringstream text;
        text << "session " << at_.epoch << ' ' << at_.since << ' ' << day.expected << ' '
             << day.next << ' ' << day.had << ' ' << day.first_given << ' ' << day.last_given << ' '
             << day.last_kept << ' ' << day.is_one_free << ' ' << day.was_taken << ' '
             << day.is_reset;
        return text.str();
    }

    const Case &of_;
    Recovered at_{};
    std::set<std::uint64_t> given_; // numbers of the venue's messages
};

// The hash of one message.
constexpr RunningHash one_message{1, 2, 3, 4};

// A session that is recovered step by step. Each step says what its call says.
struct Steps {
    Steps() { session_recovery_begin(&at); }

    // A note that fits, but for what is changed of it. It uses no number, but an answer to a Logon.
    std::uint32_t note(char kind, const std::function<void(NoteNumbers &)> &change = {}) {
        NoteNumbers note{};
        note.kind = static_cast<unsigned char>(kind);
        note.epoch = at.epoch;
        note.expected = at.day.expected;
        note.had = at.day.had;
        note.given = at.given;
        note.hash = at.hash;
        if (change) {
            change(note);
        }
        return session_recovery_note(&at, &note, copies);
    }
    std::uint32_t message() { return session_recovery_message(&at, &one_message); }
    std::uint32_t entry(std::uint64_t place, std::uint64_t number) {
        return session_recovery_entry(&at, place, number);
    }

    Recovered at{};
    std::uint64_t copies = 0;
};

// A session that was logged on, has answered the TestRequest under number 3, was given a message
// under number 2, is locked, and has carried out the act at place 5.
Steps played() {
    Steps steps;
    REQUIRE(steps.message() == 0);
    REQUIRE(steps.note('A', [](NoteNumbers &note) {
        note.number = 1;
        note.expected = 2;
        note.last_logon = 77;
    }) == 0);
    REQUIRE(steps.note('1', [](NoteNumbers &note) { note.number = 3; }) == 0);
    REQUIRE(steps.note('L', [](NoteNumbers &note) { note.act = 5; }) == 0);
    REQUIRE(steps.note('L', [](NoteNumbers &note) {
        note.is_locked = true;
        note.expected = 3;
        note.had = 3;
    }) == 0);
    return steps;
}

bool is_same(const RunningHash &one, const RunningHash &other) {
    return std::memcmp(&one, &other, sizeof one) == 0;
}

} // namespace

TEST_CASE("days of the model") {
    const std::vector<Case> all = cases();
    CHECK(all.size() >= 80);
    for (const Case &one : all) {
        CAPTURE(one.name);
        CHECK(ByCalls(one).line() == one.expected.substr(0, one.expected.find('\n')));
    }
}

TEST_CASE("what a day's line does not show, and a mark leaves as it is") {
    Steps steps = played();
    REQUIRE(steps.note('M') == 0);
    const Day &day = steps.at.day;
    CHECK(day.is_locked);
    CHECK(day.last_logon == 77);
    CHECK(day.reset_at == 0);
    CHECK(day.expected == 3);
    CHECK(day.had == 3);
    CHECK(day.next == 4);
    CHECK(steps.at.act == 5);
    CHECK(steps.at.given == 1);
    CHECK(is_same(steps.at.hash, one_message));
}

TEST_CASE("a release") {
    Steps steps = played();
    REQUIRE(steps.note('L', [](NoteNumbers &note) { note.act = 6; }) == 0);
    CHECK_FALSE(steps.at.day.is_locked);
    CHECK(steps.at.act == 6);
    CHECK(steps.at.day.last_logon == 77);
}

TEST_CASE("a reset, with a copy and without") {
    for (const std::uint64_t copies : {1, 0}) {
        CAPTURE(copies);
        Steps steps = played();
        steps.copies = copies;
        REQUIRE(steps.note('R', [](NoteNumbers &note) {
            note.act = 8;
            note.last = 9;
            note.moment = 99;
        }) == 0);
        REQUIRE(steps.note('M') == 0);
        const Day &day = steps.at.day;
        CHECK(steps.at.epoch == 1);
        CHECK(steps.at.since == 9);
        CHECK(steps.at.act == 8);
        CHECK(steps.at.given == 1);
        CHECK(is_same(steps.at.hash, one_message));
        CHECK(day.reset_at == 99);
        CHECK(day.is_reset);
        CHECK(day.is_one_free);
        CHECK_FALSE(day.is_locked);
        CHECK(day.last_logon == 0);
        CHECK(day.expected == 1);
        CHECK(day.had == 0);
        CHECK(day.next == 2 + copies);
        CHECK(day.first_given == 2 * copies);
        CHECK(day.last_given == 2 * copies);
        CHECK(day.last_kept == 2 * copies);
    }
}

TEST_CASE("an entry counts behind the last reset") {
    Steps steps = played();
    REQUIRE(steps.note('R', [](NoteNumbers &note) { note.act = note.last = 8; }) == 0);
    CHECK(steps.entry(8, 20) == 0);
    CHECK(steps.at.taken == 0);
    CHECK_FALSE(steps.at.day.was_taken);
    CHECK(steps.entry(9, 20) == 0);
    CHECK(steps.at.taken == 20);
    CHECK(steps.at.day.was_taken);
    CHECK(steps.at.day.expected == 21);
    CHECK(steps.entry(10, 20) == recovery_not_behind);
    CHECK(steps.entry(7, 30) == 0);
    CHECK(steps.at.taken == 20);
    CHECK(steps.at.day.was_taken);
    CHECK(steps.entry(10, 21) == 0);
    CHECK(steps.at.day.expected == 22);
}

// Why a note is refused, in what it differs from one that is taken.
TEST_CASE("a note that does not fit") {
    using Change = std::function<void(NoteNumbers &)>;
    const std::vector<std::tuple<char, std::uint32_t, Change>> all = {
        {'M', recovery_goes_on, {}},
        {'M', recovery_other_epoch, [](NoteNumbers &note) { note.epoch = 1; }},
        {'M', recovery_other_given, [](NoteNumbers &note) { note.given = 0; }},
        {'M', recovery_other_given, [](NoteNumbers &note) { note.given = 2; }},
        {'M', recovery_other_hash, [](NoteNumbers &note) { note.hash.first = 0; }},
        {'M', recovery_other_hash, [](NoteNumbers &note) { note.hash.fourth = 0; }},
        {'M', recovery_other_number, [](NoteNumbers &note) { note.number = 4; }},
        {'M', recovery_had_falls, [](NoteNumbers &note) { note.had = 2; }},
        {'M', recovery_expected_falls, [](NoteNumbers &note) { note.expected = 2; }},
        {'0', recovery_goes_on, [](NoteNumbers &note) { note.number = 4; }},
        {'0', recovery_other_number, [](NoteNumbers &note) { note.number = 3; }},
        {'0', recovery_other_number, [](NoteNumbers &note) { note.number = 1; }},
        {'5', recovery_goes_on, [](NoteNumbers &note) { note.number = 4; }},
        {'5', recovery_other_number, [](NoteNumbers &note) { note.number = 1; }},
        {'A', recovery_goes_on, [](NoteNumbers &note) { note.number = 4; }},
        {'A', recovery_other_number, [](NoteNumbers &note) { note.number = 1; }},
        {'A', recovery_goes_on,
         [](NoteNumbers &note) {
             note.resets = true;
             note.number = 1;
             note.expected = 2;
         }},
        {'A', recovery_other_number,
         [](NoteNumbers &note) {
             note.resets = true;
             note.number = 4;
             note.expected = 2;
         }},
        {'A', recovery_expected_falls,
         [](NoteNumbers &note) {
             note.resets = true;
             note.number = 1;
         }},
        {'L', recovery_other_number,
         [](NoteNumbers &note) {
             note.is_locked = true;
             note.number = 4;
         }},
        {'L', recovery_goes_on, [](NoteNumbers &note) { note.act = 6; }},
        {'L', recovery_act_again, [](NoteNumbers &note) { note.act = 5; }},
        {'R', recovery_goes_on, [](NoteNumbers &note) { note.act = note.last = 6; }},
        {'R', recovery_act_again, [](NoteNumbers &note) { note.act = 5, note.last = 6; }},
        {'R', recovery_act_again, [](NoteNumbers &note) { note.act = 7, note.last = 6; }},
        {'R', recovery_other_number,
         [](NoteNumbers &note) {
             note.act = note.last = 6;
             note.number = 4;
         }},
        {'x', recovery_no_kind, {}},
    };
    for (const auto &[kind, fault, change] : all) {
        CAPTURE(kind);
        Steps steps = played();
        const Recovered before = steps.at;
        CHECK(steps.note(kind, change) == fault);
        if (fault != recovery_goes_on) {
            CHECK(steps.at.day.next == before.day.next);
            CHECK(steps.at.day.expected == before.day.expected);
            CHECK(steps.at.act == before.act);
        }
    }
}

TEST_CASE("a message has a number up to 999,999,990, and none behind that") {
    Steps steps;
    steps.at.day.next = 999'999'990;
    REQUIRE(steps.message() == 0);
    CHECK(steps.at.day.next == 999'999'991);
    CHECK(steps.at.day.last_given == 999'999'990);
    REQUIRE(steps.message() == 0);
    CHECK(steps.at.day.next == 999'999'991);
    CHECK(steps.at.day.last_given == 999'999'990);
    CHECK(steps.at.given == 2);
    for (const std::uint64_t expected : {999'999'990, 999'999'991}) {
        Steps counted;
        counted.at.day.expected = expected;
        REQUIRE(counted.message() == 0);
        CHECK((counted.at.day.next == 3) == (expected == 999'999'990));
    }
}

TEST_CASE("a second reset counts no entries from before the first") {
    Steps steps = played();
    REQUIRE(steps.note('R', [](NoteNumbers &note) { note.act = 8, note.last = 20; }) == 0);
    CHECK(steps.note('R', [](NoteNumbers &note) { note.act = 9, note.last = 19; }) ==
          recovery_act_again);
    CHECK(steps.note('R', [](NoteNumbers &note) { note.act = 9, note.last = 20; }) == 0);
    CHECK(steps.at.epoch == 2);
}

TEST_CASE("a kind that is none") {
    Recovered at{};
    session_recovery_begin(&at);
    NoteNumbers note{};
    note.expected = 1;
    note.kind = 'x';
    CHECK(session_recovery_note(&at, &note, 0) == recovery_no_kind);
    CHECK(at.day.next == 2);
}

} // namespace session_model::tests
