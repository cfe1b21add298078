// Tests what the venue gives for an entry that is still being committed: it leaves once the entry
// is on disk, in its order, whichever way it goes. An Ear checks each message against the log.
#define DOCTEST_CONFIG_IMPLEMENT_WITH_MAIN
#include <doctest/doctest.h>

#include "check.h"
#include "door_scene.h"

namespace gateway::tests {

namespace {

// Whoever commits sends it; a firm that says something meanwhile is heard.
TEST_CASE("an answer waits for its entry") {
    Scene scene;
    Talk talk(scene);
    talk.settle();
    scene.book.stored_place = 0;
    scene.give(1);
    scene.session().send_held_back();
    talk.say(message_of("S", 3, ""));
    talk.serve();
    check_calls({}, talk.ear.heard(), "what is said before the commit");
    scene.book.stored_place = 1;
    scene.session().send_held_back();
    check_calls({"3 AI"}, talk.ear.heard(), "what is said behind it");
    scene.session().send_held_back();
    check_calls({}, talk.ear.heard(), "what is said again");
}

TEST_CASE("an answer behind its commit leaves at once") {
    Scene scene;
    Talk talk(scene);
    talk.settle();
    scene.book.stored_place = 1;
    scene.give(1);
    check_calls({"3 AI"}, talk.ear.heard(), "what is said");
}

// Whoever gives the next one sends those whose commit is done meanwhile.
TEST_CASE("answers leave in their order") {
    Scene scene;
    Talk talk(scene);
    talk.settle();
    scene.book.stored_place = 0;
    scene.give(1);
    scene.give(2);
    scene.book.stored_place = 2;
    scene.give(3);
    check_calls({"3 AI", "4 AI"}, talk.ear.heard(), "what is said before the last commit");
    scene.book.stored_place = 3;
    talk.serve();
    check_calls({"5 AI"}, talk.ear.heard(), "what is said behind it");
}

TEST_CASE("the session's own behind an answer that waits") {
    Scene scene;
    Talk talk(scene);
    talk.settle();
    scene.book.stored_place = 0;
    scene.give(1);
    talk.say(message_of("1", 3, "112=x|"));
    check_calls({"3 AI", "4 0"}, talk.ear.heard(), "what is said");
}

// The session keeps it, and hands it over later: when it is settled, or asked for it again.
TEST_CASE("handed over later") {
    Scene scene;
    Talk talk(scene);
    talk.say(logon_of());
    scene.book.stored_place = 0;
    scene.give(1, "3", "45=2|373=1|");
    scene.give(2);
    talk.ear.heard();
    talk.say(message_of("0", 2, "112=2|"));
    check_calls({"3 3", "4 AI"}, talk.ear.heard(), "what waited for the answer");
    scene.book.stored_place = 0;
    talk.say(message_of("2", 3, "7=3|16=0|"));
    check_calls({"3 3 again", "4 AI again"}, talk.ear.heard(), "what is sent again");
}

TEST_CASE("given while the firm is away") {
    Scene scene;
    Talk(scene).settle();
    scene.book.stored_place = 0;
    scene.give(1);
    Talk talk(scene);
    talk.say(logon_of(3));
    check_calls({"4 A", "5 1"}, talk.ear.heard(), "what its Logon is answered");
    scene.book.stored_place = 0;
    talk.say(message_of("2", 4, "7=3|16=3|"));
    check_calls({"3 AI again"}, talk.ear.heard(), "what it is sent");
}

// What waits when a connection ends is not lost, and not said on the next one of itself.
TEST_CASE("a connection that ends meanwhile") {
    Scene scene;
    {
        Talk talk(scene);
        talk.settle();
        scene.book.stored_place = 0;
        scene.give(1);
    }
    scene.book.stored_place = 1;
    Talk talk(scene);
    talk.say(logon_of(3));
    check_calls({"4 A", "5 1"}, talk.ear.heard(), "what its Logon is answered");
    talk.say(message_of("2", 4, "7=3|16=3|"));
    check_calls({"3 AI again"}, talk.ear.heard(), "what it is sent");
}

// So that a gateway that starts again knows a later Logon from one that is said again.
TEST_CASE("the note of a Logon says when that was sent") {
    Scene scene;
    Talk talk(scene);
    talk.settle();
    const auto logon = std::find_if(scene.book.notes.begin(), scene.book.notes.end(),
                                    [](const SessionNote &note) { return note.kind == 'A'; });
    check(logon != scene.book.notes.end(), "it has no note");
    check(logon->last_logon != 0, "no moment");
    same(scene.book.numbers.last_logon, logon->last_logon, "the moment that the session keeps");
}

} // namespace

} // namespace gateway::tests
