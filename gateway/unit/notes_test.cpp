// Lines of the log that the venue ignores, and the requests that they come from.
#define DOCTEST_CONFIG_IMPLEMENT_WITH_MAIN
#include <doctest/doctest.h>

#include "check.h"
#include "log/act_event.h"
#include "log/notes.h"
#include "log/session_note_line.h"
#include "operator/admin_words.h"

#include <string>
#include <vector>

#include <fmt/format.h>

namespace gateway::tests {

namespace {

constexpr std::string_view head = "# act 09:00:00.123 ";

TEST_CASE("acts are one line") {
    struct Case {
        Act act;
        std::string text;
    };
    for (const Case &each : {
             Case{{"root(0)", "reload", ""}, "root(0) reload"},
             Case{{"a(1)", "reload", "as agreed"}, "a(1) reload because=\"as agreed\""},
             Case{{"a(1)", "reload", "x\n# act"}, "a(1) reload because=\"x\\x0a# act\""},
             Case{{"a(1)", "reload", "\"\\\x7f\x01"},
                  "a(1) reload because=\"\\x22\\x5c\\x7f\\x01\""},
             Case{{"a(1)", "reload", "\xc3\xa9"}, "a(1) reload because=\"\\xc3\\xa9\""},
             Case{{"a(1)", "reload", std::string("\0", 1)}, "a(1) reload because=\"\\x00\""},
         }) {
        check(text_of(each.act) == each.text, text_of(each.act));
    }
}

TEST_CASE("an event has an act and its reason as two keys") {
    check(event_of({"root(0)", "halt", "prices are \"odd\"\n"}) ==
              "act=\"root(0) halt\" because=\"prices are \\x22odd\\x22\\x0a\"",
          "quotation marks stand in none");
    check(event_of({"root(0)", "resume", ""}) == "act=\"root(0) resume\"", "without a reason");
}

TEST_CASE("acts are short") {
    const std::string longest(longest_note - head.size() - 25, 'x');
    const Act act{"root(0)", "reload", longest};
    check(head.size() + text_of(act).size() <= longest_note, "the longest act is too long");
    bool is_refused = false;
    try {
        text_of(Act{"root(0)", "reload", longest + "x"});
    } catch (const ActTooLong &) {
        is_refused = true;
    }
    check(is_refused, "an act of more than 200 bytes");
}

// A reason is never a word, and no line but a note has any.
TEST_CASE("notes are read") {
    struct Case {
        std::string line;
        std::string firm; // of a limit; empty where it is none
        bool accepts;
        std::int64_t step;
    };
    for (const Case &each : {
             Case{"# act 09:00:00.123 a(1) limit DLR1 day_bytes=5", "DLR1", false, 0},
             Case{"# act 09:00:00.123 a(1) limit DLR1 day_bytes=5 because=\"y\"", "DLR1", false, 0},
             Case{"# act 09:00:00.123 a(1) limit DLR1 day_bytes=configured", "DLR1", false, 0},
             Case{"# act 09:00:00.123 a(1) limit DLR1 day_bytes=5x", "", false, 0},
             Case{"# act 09:00:00.123 a(1) limit DLR1", "", false, 0},
             Case{"# clock 09:00:00.123 a(1) limit DLR1 day_bytes=5", "", false, 0},
             Case{"# act 09:00:00.123 a(1) reload because=\"a(1) clock accept\"", "", false, 0},
             Case{"# act 09:00:00.123 a(1) clock accept", "", true, 0},
             Case{"# act 09:00:00.123 a(1) clock accept because=\"z\"", "", true, 0},
             Case{"act 09:00:00.123 a(1) clock accept", "", false, 0},
             Case{"clock 09:00:00.123", "", false, 0},
             Case{"# clock 09:00:00.123 set -40000000", "", false, -40000000},
             Case{"# clock 09:00:00.123 synchronised 1234", "", false, 0},
             Case{"#", "", false, 0},
             Case{"", "", false, 0},
         }) {
        const Note note = note_of(each.line).value_or(Note{});
        const auto limit = limit_in(note);
        check((limit ? limit->firm : "") == each.firm, each.line);
        check(accepts_clock(note) == each.accepts, each.line);
        check(step_in(note).value_or(std::chrono::microseconds(0)).count() == each.step, each.line);
    }
}

TEST_CASE("busts are read") {
    const std::string trade = "20261127-INV1-DLR1-1";
    const std::string line = "# act 09:00:00.123 a(1) bust " + trade;
    for (const std::string &text : {line, line + " because=\"y\""}) {
        check(bust_in(note_of(text).value_or(Note{})) == trade, text);
    }
    for (const std::string &text :
         {line + " " + trade, "# act 09:00:00.123 a(1) halt " + trade,
          std::string("# act 09:00:00.123 a(1) bust"), "# clock 09:00:00.123 a(1) bust " + trade,
          "# act 09:00:00.123 a(1) reload because=\"a(1) bust " + trade + "\""}) {
        check(!bust_in(note_of(text).value_or(Note{})), text);
    }
}

TEST_CASE("admissions are read") {
    const std::string line = "# act 09:00:00.123 a(1) admit DLR1 20261127 " + std::string(64, 'a');
    for (const std::string &text : {line, line + " because=\"y\""}) {
        check(admitted_in(note_of(text).value_or(Note{})) == "DLR1", text);
    }
    for (const std::string &text :
         {line + " DLR2", std::string("# act 09:00:00.123 a(1) admit DLR1"),
          "# clock 09:00:00.123 a(1) admit DLR1 20261127 " + std::string(64, 'a'),
          std::string("# act 09:00:00.123 a(1) reload because=\"a(1) admit DLR1 20261127 x\"")}) {
        check(!admitted_in(note_of(text).value_or(Note{})), text);
    }
}

// What is written is read, whatever its bytes.
TEST_CASE("requests are read") {
    std::string all;
    for (int byte = 0; byte < 256; ++byte) {
        all += static_cast<char>(byte);
    }
    for (const std::vector<std::string> &words :
         {std::vector<std::string>{"status"}, {"limit", "DLR1", ""}, {all}, {"%", " ", "\n"}}) {
        const std::string line = line_of({true, words});
        check(line.find('\n') == line.size() - 1, "a line feed within a request");
        const auto read = request_of(std::string_view(line).substr(0, line.size() - 1));
        check(read && read->wants_json && read->words == words, "another request is read: " + line);
    }
    for (const char *line : {"", "1", "1 text", "1 text ", "1 text  a", "1 text a%", "1 text a%g0",
                             "1 text a%0", "2 text a", "1 xml a", " 1 text a", "1 text a\x01"}) {
        check(!request_of(line), fmt::format("a request is read: {}", line));
    }
}

// docs/RECOVERY.md has the form.
const std::string none(64, '0');
const std::vector<std::string> session_note_lines = {
    "DLR1 0 A 1 2 0 0 " + none + " 09:00:00.000 63918406800000 N",
    "DLR1 0 A 1 2 9 7 " + std::string(64, 'a') + " 09:00:00.000 63918406800000 Y",
    "F 1 0 5 2 0 0 " + none + " 23:59:59.999",
    "F 0 j 5 2 0 0 " + none + " 09:00:00.000 45=7\\x01372=R\\x0158=a \\x5c b\\x01",
    "F 0 3 5 2 0 0 " + none + " 09:00:00.000 45=0\\x01373=1\\x01",
    "F 2 R 0 999999990 4 0 " + none + " 09:00:00.000 17 16",
    "F 0 L 0 2 0 0 " + none + " 09:00:00.000 locked",
    "F 0 L 0 2 0 0 " + none + " 09:00:00.000 released 16",
    "F 0 M 0 2 0 0 " + none + " 09:00:00.000",
};

TEST_CASE("session notes are read as they are written") {
    for (const std::string &line : session_note_lines) {
        const auto note = session_note_of(line);
        REQUIRE_MESSAGE(note, line);
        same(line, text_of(*note), "what is written of it");
    }
    same<std::string>("45=7|372=R|58=a \\ b|",
                      with_bars(session_note_of(session_note_lines[3])->said.fields),
                      "the fields of a BusinessMessageReject");
    check(session_note_of(session_note_lines[5])->said.act == 16, "the act of a reset");
    check(session_note_of(session_note_lines[5])->last == 17, "and the last entry before it");
}

// One note is one line, and says it in one way.
TEST_CASE("what is no session note") {
    for (const std::string &line : session_note_lines) {
        const std::string before = line.substr(0, line.find(':') - 3); // its moment
        for (const std::string &other :
             {line + " ", line + "\n", " " + line, line.substr(1 + line.find(' ')), before,
              before + " 24:00:00.000"}) {
            check(!session_note_of(other), other);
        }
    }
    const std::vector<std::string> wrong = {"F 00 M 0 2 0 0 " + none + " 09:00:00.000",
                                            "F 0 X 0 2 0 0 " + none + " 09:00:00.000",
                                            "F 0 M 0 +2 0 0 " + none + " 09:00:00.000",
                                            "F 0 M 0 2 0 0 0 09:00:00.000",
                                            "F 0 3 5 2 0 0 " + none + " 09:00:00.000 45=\\x41",
                                            "F 0 L 0 2 0 0 " + none + " 09:00:00.000 open"};
    for (const std::string &line : wrong) {
        check(!session_note_of(line), line);
    }
}

// By another implementation (the module hashlib of Python).
TEST_CASE("running hashes") {
    same<std::string>("3d13d9f8f81292b17d15bad8d71d1b9daa9574d1c49c72d8ee0a92faa4da1d7d",
                      text_of(hash_of_message({}, "abc")), "of a message");
    same<std::string>("17e13bbf066edac4defba5068b76054284d64a39a30eb4119ccb38485328710c",
                      text_of(hash_of_notes({}, "x\ny z\n")), "of two notes");
    check(hash_of_notes(hash_of_notes({}, "x\n"), "y z\n") == hash_of_notes({}, "x\ny z\n"),
          "batch by batch");
    check(hash_of_notes({}, "x") == Digest{}, "of what is no line");
}

} // namespace

} // namespace gateway::tests
