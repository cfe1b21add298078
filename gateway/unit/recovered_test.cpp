// The session that follows from entries and session notes, by the second implementation: days that
// a model of the rules drew, and what these do not have.
#define DOCTEST_CONFIG_IMPLEMENT_WITH_MAIN
#include <doctest/doctest.h>

#include "recovered_cases.h"

#include <string>
#include <vector>

namespace session_model::tests {

namespace {

RecoveredNote said(char kind, Number number, Number expected = 1) {
    RecoveredNote note;
    note.kind = kind;
    note.number = number;
    note.expected = expected;
    return note;
}

// A release of the act at a place.
RecoveredNote released(Number act) {
    RecoveredNote note = said('L', 0);
    note.act = act;
    return note;
}

RecoveredNote locked(Number expected = 1) {
    RecoveredNote note = said('L', 0, expected);
    note.is_locked = true;
    return note;
}

const std::vector<RecoveredAct> two_releases = {{5, ActKind::release}, {9, ActKind::release}};

} // namespace

TEST_CASE("days of the model") {
    const std::vector<Case> all = cases();
    CHECK(all.size() >= 80);
    for (const Case &one : all) {
        CAPTURE(one.name);
        CHECK(one.given() == one.expected);
    }
}

TEST_CASE("a lock and a release") {
    CHECK(recovered({}, two_releases, {}, {locked()}).is_locked);
    const RecoveredSession once = recovered({}, two_releases, {}, {locked(), released(5)});
    CHECK_FALSE(once.is_locked);
    CHECK(once.act == 5);
    CHECK(recovered({}, two_releases, {}, {released(5), locked()}).is_locked);
    CHECK(recovered({}, two_releases, {}, {released(5), released(9)}).act == 9);
}

TEST_CASE("an act that does not stand there, or was carried out") {
    CHECK_THROWS_AS(recovered({}, two_releases, {}, {released(6)}), NotRecovered);
    CHECK_THROWS_AS(recovered({}, two_releases, {}, {released(9), released(5)}), NotRecovered);
    CHECK_THROWS_AS(recovered({}, two_releases, {}, {released(5), released(5)}), NotRecovered);
    RecoveredNote reset = released(5);
    reset.kind = 'R';
    reset.last = 5;
    CHECK_THROWS_AS(recovered({}, two_releases, {}, {reset}), NotRecovered);
}

TEST_CASE("a reset") {
    const std::vector<RecoveredAct> acts = {{4, ActKind::reset}};
    RecoveredNote logon = said('A', 1, 2);
    logon.last_logon = 77;
    RecoveredNote reset = said('R', 0, 2);
    reset.act = 4;
    reset.last = 6;
    reset.moment = 99;
    const RecoveredSession session =
        recovered({{2, 2}, {7, 1}}, acts, {}, {logon, locked(2), reset});
    CHECK(session.reset_at == 99);
    CHECK(session.last_logon == 0);
    CHECK_FALSE(session.is_locked);
    CHECK(session.expected == 2); // the entry behind it
    reset.last = 3;
    CHECK_THROWS_AS(recovered({}, acts, {}, {reset}), NotRecovered);
}

TEST_CASE("who is suspended") {
    const RecoveredAct suspend{3, ActKind::suspend};
    const RecoveredAct resume{4, ActKind::resume};
    CHECK(recovered({}, {suspend}, {}, {}).is_suspended);
    CHECK_FALSE(recovered({}, {suspend, resume}, {}, {}).is_suspended);
}

TEST_CASE("numbers that do not rise") {
    CHECK(recovered({{2, 4}, {3, 6}}, {}, {}, {}).expected == 7);
    CHECK_THROWS_AS(recovered({{2, 4}, {3, 4}}, {}, {}, {}), NotRecovered);
    CHECK_THROWS_AS(recovered({}, {}, {}, {said('1', 3)}), NotRecovered);
    CHECK_THROWS_AS(recovered({}, {}, {}, {said('1', 2, 5), said('0', 3, 4)}), NotRecovered);
}

TEST_CASE("which note does not fit is told, or which entry") {
    const auto told = [](const std::vector<RecoveredEntry> &entries,
                         const std::vector<RecoveredNote> &notes) -> std::string {
        try {
            recovered(entries, {}, {}, notes);
        } catch (const NotRecovered &fault) {
            return fault.what();
        }
        return "";
    };
    CHECK(told({}, {said('1', 3)}).starts_with("note 1: "));
    CHECK(told({}, {said('1', 2), said('1', 4)}).starts_with("note 2: "));
    CHECK(told({{2, 4}, {3, 4}}, {}).starts_with("entry 3: "));
    CHECK(told({{2, 4}}, {said('1', 2)}) == "");
}

TEST_CASE("141=Y where more than its Logon is counted") {
    RecoveredNote logon = said('A', 1, 2);
    logon.resets = true;
    CHECK(recovered({}, {}, {}, {said('1', 2, 5), logon}).expected == 2);
    logon.expected = 3;
    CHECK_THROWS_AS(recovered({}, {}, {}, {logon}), NotRecovered);
}

} // namespace session_model::tests
