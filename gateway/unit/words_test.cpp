// Words that are written and read back: an operator's request, any bytes as ASCII, a mistyped word,
// and an event.
#define DOCTEST_CONFIG_IMPLEMENT_WITH_MAIN
#include <doctest/doctest.h>

#include "base/escaped.h"
#include "base/event_form.h"
#include "base/nearest_word.h"
#include "check.h"
#include "operator/admin_words.h"

#include <array>
#include <chrono>
#include <string>
#include <string_view>
#include <vector>

#include <spdlog/details/log_msg.h>

namespace gateway::tests {

using Words = std::vector<std::string>;

TEST_CASE("a request is read as it is written") {
    const AdminRequest request{true, {"bust", "a b", "", "50%", "tab\tand\nline", "\xc3\xa9"}};
    const std::string line = line_of(request);
    CHECK(line == "1 json bust a%20b % 50%25 tab%09and%0aline %c3%a9\n");
    const auto read = request_of(line.substr(0, line.size() - 1));
    REQUIRE(read);
    CHECK(read->wants_json);
    CHECK(read->words == request.words);
    const auto text = request_of("1 text status");
    REQUIRE(text);
    CHECK_FALSE(text->wants_json);
    CHECK(text->words == Words{"status"});
    CHECK(line_of(*text) == "1 text status\n");
}

TEST_CASE("what is of another form is no request") {
    for (const char *none :
         {"", "1", "1 text", "2 text status", "1 html status", "1 text  status", "1 text status ",
          "1 text a%2", "1 text a%2x", "1 text a%x2", "1 text a%%", "1 text a%+1", "1 text \ta",
          "1 text \xc3\xa9", "1 text \x7f"}) {
        CHECK_FALSE_MESSAGE(request_of(none), none);
    }
}

TEST_CASE("a piece's length has eight digits") {
    CHECK(length_of_piece(0) == "00000000");
    CHECK(length_of_piece(1) == "00000001");
    CHECK(length_of_piece(0x10a) == "0000010a");
    CHECK(length_of_piece(longest_piece) == "00010000");
}

TEST_CASE("any bytes are ASCII") {
    CHECK(escaped("a b~") == "a b~");
    CHECK(escaped("\"\\\n\x1f\x7f\xff") == "\\x22\\x5c\\x0a\\x1f\\x7f\\xff");
    CHECK(unescaped("a b~") == "a b~");
    CHECK(unescaped("\\x22\\x5c\\x0a!") == "\"\\\n!");
    for (const char *none : {"\\", "\\x", "\\x2", "\\x2g", "\\xg2", "\\x41", "\\x5C", "\"", "\n"}) {
        CHECK_FALSE_MESSAGE(unescaped(none), none);
    }
}

// What a stranger sent ends no line, and moves no cursor of a terminal: the first and the last
// control character, those beside a bar, DEL, and those from 0x80 to 0x9f, as one byte or in UTF-8.
// Nor has it bytes that are no UTF-8, of which the journal would show nothing. All else is as it
// came.
TEST_CASE("an event is one line of what can be shown") {
    using namespace std::chrono_literals;
    const auto at = std::chrono::sys_days{std::chrono::year{2025} / 3 / 14} + 9h + 7ms;
    const auto line_of_words = [at](std::string_view words) {
        spdlog::memory_buf_t line;
        event_form()->format({at, {}, "gateway", spdlog::level::warn, words}, line);
        return std::string(line.data(), line.size());
    };
    const std::string head = "2025-03-14T09:00:00.007Z warning ";
    CHECK(line_of_words("8=FIX\x01"
                        "35=A\x01") == head + "8=FIX|35=A|\n");
    CHECK(line_of_words({"\0\2\t\n\r\x1b[2K\x1f\x7f", 11}) == head + "??????[2K??\n");
    CHECK(line_of_words(" !~\xc3\xa9") == head + " !~\xc3\xa9\n");
    // Those that have bytes from 0x80 to 0x9f, and the first and the last of each length.
    for (const char *whole :
         {"\xc2\xa0", "\xc3\x9f", "\xdf\xbf", "\xe0\xa0\x80", "\xe2\x82\xac", "\xed\x9f\xbf",
          "\xee\x80\x80", "\xef\xbf\xbf", "\xf0\x90\x80\x80", "\xf4\x8f\xbf\xbf"}) {
        CHECK(line_of_words(whole) == head + whole + "\n");
    }
    for (const char *none :
         {"\x80", "\x9b", "\x9f", "\xa0", "\xc0", "\xff", "\xf8", "\xc3", "\xe2"}) {
        CHECK(line_of_words(none + std::string("A")) == head + "?A\n");
    }
    for (const char *none : {"\xc2\x80", "\xc2\x9b", "\xc2\x9f", "\xc1\xbf", "\xe2\x82"}) {
        CHECK(line_of_words(none + std::string("[2K")) == head + "??[2K\n");
    }
    for (const char *none : {"\xe0\x9f\xbf", "\xed\xa0\x80", "\xed\xbf\xbf"}) {
        CHECK(line_of_words(none) == head + "???\n");
    }
    for (const char *none : {"\xf0\x8f\xbf\xbf", "\xf4\x90\x80\x80"}) {
        CHECK(line_of_words(none) == head + "????\n");
    }
    const auto form = event_form()->clone();
    spdlog::memory_buf_t line;
    form->format({at, {}, "gateway", spdlog::level::info, "a\nb"}, line);
    CHECK(std::string(line.data(), line.size()) == "2025-03-14T09:00:00.007Z info a?b\n");
}

// A letter of three may be wrong: added, left out, changed, or changed with its neighbour.
TEST_CASE("the word that was meant") {
    constexpr std::array<std::string_view, 4> words = {"status", "suspend", "halt", "resume"};
    const auto meant = [&](std::string_view typed) { return nearest_word(typed, words); };
    CHECK(meant("status") == "status");
    CHECK(meant("statsu") == "status");
    CHECK(meant("sttus") == "status");
    CHECK(meant("staatus") == "status");
    CHECK(meant("xtatux") == "status");
    CHECK_FALSE(meant("xxatux"));
    CHECK(meant("hlat") == "halt");
    CHECK_FALSE(meant("hxxt"));
    CHECK_FALSE(meant("tlah"));
    CHECK(meant("suspned") == "suspend");
    CHECK_FALSE(meant(""));
    CHECK_FALSE(meant(std::string(41, 's')));
}

TEST_CASE("of two words the nearer one, and of equal ones the first") {
    constexpr std::array<std::string_view, 3> words = {"abcdeg", "abcdef", "abcdeh"};
    CHECK(nearest_word("abcdef", words) == "abcdef");
    CHECK(nearest_word("abcdex", words) == "abcdeg");
    // A word of 39 letters is guessed, with thirteen of them wrong and no more.
    const std::string longest(39, 'a');
    const std::array<std::string_view, 1> one = {longest};
    CHECK(nearest_word(std::string(26, 'a') + std::string(13, 'b'), one) == longest);
    CHECK_FALSE(nearest_word(std::string(25, 'a') + std::string(14, 'b'), one));
}

} // namespace gateway::tests
