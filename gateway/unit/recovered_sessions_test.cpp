// The sessions of a day, recovered by what is sealed and what the venue gives: what waits, what is
// kept, and what is refused.
#define DOCTEST_CONFIG_IMPLEMENT_WITH_MAIN
#include <doctest/doctest.h>

#include "check.h"
#include "common/frame.h"
#include "log/session_note_line.h"
#include "recovery/firm_state.h"
#include "recovery/recovered_numbers.h"
#include "recovery/recovered_sessions.h"

#include <functional>
#include <stdexcept>
#include <string>
#include <string_view>

#include <fmt/format.h>

namespace gateway::tests {

namespace {

constexpr std::uint32_t nine = 9 * 60 * 60 * 1000; // a moment

// A day of DLR1 and INV1: what is fed, noted and given.
struct Scene {
    Scratch scratch{"recovered"};
    Spool spool{scratch.path(), {"DLR1", "INV1"}};
    NoteQueue notes{scratch.path()};
    RecoveredSessions recovered{spool, notes, "20250314"};
    ReplaySummary fed;

    // The venue's next message to DLR1, for the last entry.
    void give() {
        const std::uint32_t number = spool.last_given("DLR1") + 1;
        spool.give("DLR1", {number, fed.last_place(), nine + fed.last_place(), "AI",
                            fmt::format("wire {}", number), fmt::format("frame {}", number)});
    }
    // An entry: a message of DLR1 with this number, or a note.
    void feed(std::uint32_t number, std::string_view note = {}) {
        Entry entry;
        entry.place = fed.last_place() + 1;
        entry.line = note.empty() ? "hex DLR1 09:00:00.000 00" : note;
        if (note.empty()) {
            entry.firm = "DLR1";
            entry.number = number;
        }
        fed.add(entry);
    }
    // A note of DLR1, once it was given so many messages.
    SessionNoteLine note(char kind, std::uint32_t number, std::uint32_t given) const {
        SessionNoteLine line;
        line.firm = "DLR1";
        line.said.kind = kind;
        line.said.number = number;
        line.said.moment = nine;
        line.expected = 2;
        line.given = given;
        line.hash = spool.hash_of_given("DLR1", given);
        return line;
    }
    void put(const SessionNoteLine &line) { notes.put(text_of(line) + "\n"); }
    void go_on() {
        recovered.go_on([this] { return fed; });
    }
    FirmState finished() {
        go_on();
        return recovered.finished(fed).at("DLR1");
    }
    // Why it is refused; empty where it is not.
    std::string refusal() {
        try {
            finished();
            return {};
        } catch (const std::runtime_error &fault) {
            return fault.what();
        }
    }
    // `NUMBER:FRAME` of all that is kept, with a `'` behind the number of a copy.
    std::string kept() const {
        std::string all;
        for (const KeptMessage &message : spool.kept("DLR1", 1, 100)) {
            all += fmt::format("{}{}{}:{}", all.empty() ? "" : " ", message.number,
                               message.is_copy ? "'" : "", message.frame);
        }
        return all;
    }
};

SessionNoteLine logon(const Scene &scene) {
    SessionNoteLine line = scene.note('A', 1, 0);
    line.said.last_logon = 77;
    return line;
}

SessionNoteLine reject(const Scene &scene, std::uint32_t number, std::uint32_t given) {
    SessionNoteLine line = scene.note('3', number, given);
    line.said.fields = fmt::format("45=2{}373=5{}", soh, soh);
    return line;
}

} // namespace

TEST_CASE("a day") {
    Scene scene;
    scene.put(logon(scene));
    scene.feed(2);
    scene.give();
    scene.put(reject(scene, 3, 1));
    scene.give();
    const FirmState state = scene.finished();
    const std::string own = framed(fmt::format("35=3{}45=2{}373=5{}", soh, soh, soh));
    same<std::string>("2:wire 1 3:" + own + " 4:wire 2", scene.kept(), "what is kept");
    same<std::uint32_t>(nine + 1, scene.spool.kept("DLR1", 2, 1).at(0).first, "an entry's moment");
    same<std::uint32_t>(nine, scene.spool.kept("DLR1", 3, 1).at(0).first, "its own moment");
    const SessionNumbers &numbers = state.numbers;
    check(numbers.expected == 3 && numbers.next == 5 && !numbers.is_one_free, "its numbers");
    check(numbers.last_logon == 77 && numbers.was_taken, "its Logon, and its message");
    check(state.entries == 1 && state.given == 2, "how much came and was given");
    check(state.noted == 1 && state.given == 2, "no note names the last message");
}

TEST_CASE("a note waits for what it names") {
    Scene scene;
    scene.put(logon(scene));
    SessionNoteLine mark = scene.note('M', 0, 1);
    scene.feed(2);
    Scene other;
    other.feed(2);
    other.give();
    mark.hash = other.spool.hash_of_given("DLR1", 1);
    scene.put(mark);
    same<std::uint32_t>(1, scene.notes.noted("DLR1"), "what notes name");
    scene.go_on();
    check(scene.notes.front() == text_of(mark), "the mark waits for the venue");
    check(scene.refusal().find("gave it 0 messages, and a note names 1") != std::string::npos,
          "at the end it waits for nothing");
    scene.give();
    scene.go_on();
    check(!scene.notes.front(), "it was taken");
}

TEST_CASE("a release waits for its act") {
    Scene scene;
    SessionNoteLine lock = scene.note('L', 0, 0);
    lock.said.is_locked = true;
    scene.put(lock);
    SessionNoteLine release = scene.note('L', 0, 0);
    release.said.act = 1;
    scene.put(release);
    scene.go_on();
    check(scene.notes.front() == text_of(release), "the act was not fed yet");
    scene.feed(0, "# act 09:00:00.000 root(0) release DLR1");
    const FirmState state = scene.finished();
    check(!state.numbers.is_locked && state.act == 1, "it is released");
}

TEST_CASE("a reset numbers anew what the firm has not had") {
    Scene scene;
    scene.put(logon(scene));
    scene.feed(2);
    scene.give();
    scene.give();
    scene.feed(0, "# act 09:00:00.000 root(0) reset-session DLR1");
    SessionNoteLine reset = scene.note('R', 0, 2);
    reset.had = 2;
    reset.last = 3;
    reset.said.act = 2;
    scene.put(reset);
    scene.feed(3); // before it was carried out
    scene.feed(2); // and behind
    const FirmState state = scene.finished();
    same<std::string>("2':wire 2", scene.kept(), "the copy");
    check(state.epoch == 1, "the reset");
    check(state.numbers.next == 3 && state.numbers.expected == 3, "its numbers");
}

TEST_CASE("141=Y keeps no Reject") {
    Scene scene;
    scene.put(logon(scene));
    scene.put(reject(scene, 2, 0));
    scene.feed(2);
    scene.give();
    SessionNoteLine again = scene.note('A', 1, 1);
    again.said.resets = true;
    scene.put(again);
    scene.finished();
    same<std::string>("3:wire 1", scene.kept(), "the venue's alone");
}

TEST_CASE("what does not fit is refused, with the firm and the note") {
    struct Case {
        const char *words;
        std::function<void(Scene &)> changed;
    };
    for (const Case &each : {
             Case{"its note 2: its number is not the one that is due",
                  [](Scene &scene) { scene.put(reject(scene, 3, 0)); }},
             Case{"its note 2: the venue gives other messages than the session was given",
                  [](Scene &scene) {
                      scene.feed(2);
                      scene.give();
                      SessionNoteLine mark = scene.note('M', 0, 1);
                      mark.hash[0] ^= 1;
                      scene.put(mark);
                  }},
             Case{"the number of entry 2 is not behind that of entry 1",
                  [](Scene &scene) {
                      scene.feed(3);
                      scene.feed(3);
                  }},
             Case{"its note 2: it is of another epoch",
                  [](Scene &scene) {
                      SessionNoteLine mark = scene.note('M', 0, 0);
                      mark.epoch = 1;
                      scene.put(mark);
                  }},
             Case{"its note 3: the firm had more before",
                  [](Scene &scene) {
                      SessionNoteLine mark = scene.note('M', 0, 0);
                      mark.had = 1;
                      scene.put(mark);
                      mark.had = 0;
                      scene.put(mark);
                  }},
             Case{"its note 3: another number was expected before",
                  [](Scene &scene) {
                      SessionNoteLine mark = scene.note('M', 0, 0);
                      mark.expected = 3;
                      scene.put(mark);
                      mark.expected = 2;
                      scene.put(mark);
                  }},
             Case{"its note 3: it speaks of other messages than the venue gives",
                  [](Scene &scene) {
                      scene.feed(2);
                      scene.give();
                      scene.put(scene.note('M', 0, 1));
                      scene.put(scene.note('M', 0, 0));
                  }},
             Case{"its note 4: what it carries out was carried out before",
                  [](Scene &scene) {
                      scene.feed(0, "# act 09:00:00.000 ann(7) release DLR1");
                      SessionNoteLine lock = scene.note('L', 0, 0);
                      lock.said.is_locked = true;
                      scene.put(lock);
                      lock.said.is_locked = false;
                      lock.said.act = 1;
                      scene.put(lock);
                      scene.put(lock);
                  }},
             Case{"no operator has done what a note carries out, in entry 1",
                  [](Scene &scene) {
                      scene.feed(2);
                      SessionNoteLine release = scene.note('L', 0, 0);
                      release.said.act = 1;
                      scene.put(release);
                  }},
         }) {
        Scene scene;
        scene.put(logon(scene));
        each.changed(scene);
        const std::string told = scene.refusal();
        check(told.starts_with("DLR1's session does not follow") &&
                  told.find(each.words) != std::string::npos,
              fmt::format("{}, and not: {}", told, each.words));
    }
}

// In milliseconds of a calendar that begins before 1970.
TEST_CASE("the midnight of a session's date") {
    constexpr std::uint64_t milliseconds = 86'400'000;
    for (const auto &[date, days] :
         {std::pair("19700101", 719'528), std::pair("20000131", 730'515),
          std::pair("20240229", 739'310), std::pair("20261130", 740'315)}) {
        same(days * milliseconds, midnight_of_session(date), date);
    }
}

TEST_CASE("many messages between two notes") {
    Scene scene;
    scene.put(logon(scene));
    scene.feed(2);
    for (int count = 0; count < 1500; ++count) {
        scene.give();
    }
    scene.put(scene.note('0', 702, 700));
    const FirmState state = scene.finished();
    check(state.noted == 700 && state.given == 1500, "how many were given");
    same<std::uint32_t>(1503, state.numbers.next, "the next number");
    same<std::size_t>(1500, scene.spool.kept("DLR1", 1, 2000).size(), "all are kept");
    for (const auto &[number, wire] : {std::pair(2, 1), {701, 700}, {703, 701}, {1502, 1500}}) {
        const auto kept = scene.spool.kept("DLR1", static_cast<std::uint32_t>(number), 1);
        check(static_cast<int>(kept.at(0).number) == number, "under its number");
        same(fmt::format("wire {}", wire), kept.at(0).frame, "the message");
    }
}

TEST_CASE("who is suspended, and how much came") {
    Scene scene;
    scene.feed(0, "# act 09:00:00.000 root(0) suspend DLR1");
    check(scene.finished().numbers.is_suspended, "by the last act");
    scene.feed(0, "# act 09:00:00.000 root(0) resume DLR1");
    check(!scene.finished().numbers.is_suspended, "and no more");
}

TEST_CASE("more notes than are read at once") {
    Scene scene;
    scene.put(logon(scene));
    for (std::uint32_t number = 2; number <= 4000; ++number) {
        scene.put(scene.note('0', number, 0));
        if (number % 1000 == 0) {
            scene.go_on();
        }
    }
    same<std::uint32_t>(4001, scene.finished().numbers.next, "the next number");
}

// A firm that has gone is none of the day if nothing was said on it but that the venue is closed.
TEST_CASE("a firm that the venue does not have") {
    const auto told = [](const FirmState &state, const std::vector<std::string> &firms) {
        try {
            check_known({{"DLR1", FirmState{}}, {"GONE", state}}, firms);
            return std::string();
        } catch (const std::runtime_error &fault) {
            return std::string(fault.what());
        }
    };
    FirmState refused;
    refused.numbers.expected = 3;
    refused.numbers.next = 3;
    refused.numbers.is_one_free = false;
    same<std::string>("", told(refused, {"DLR1"}), "one that was refused before the day opened");
    std::vector<FirmState> begun(4, refused);
    begun[0].entries = 1;
    begun[1].given = 1;
    begun[2].numbers.last_kept = 1;
    begun[3].numbers.last_logon = 1;
    for (const FirmState &state : begun) {
        same<std::string>("the log has GONE, and the venue has no such firm", told(state, {"DLR1"}),
                          "one that has begun");
        same<std::string>("", told(state, {"DLR1", "GONE"}), "one that is there");
    }
}

} // namespace gateway::tests
