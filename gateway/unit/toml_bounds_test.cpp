// Texts that are kept from the parser of TOML, since they would use up its stack or all memory.
#define DOCTEST_CONFIG_IMPLEMENT_WITH_MAIN
#include <doctest/doctest.h>

#include "check.h"
#include "common/toml_bounds.h"

#include <string>

#include <toml++/toml.h>

namespace gateway::tests {

namespace {

std::string times(std::size_t count, const std::string &text) {
    std::string all;
    for (std::size_t at = 0; at < count; ++at) {
        all += text;
    }
    return all;
}

std::string told(const std::string &text) {
    const auto excess = excess_of(text);
    return excess ? fmt::format("line {}: {}", excess->line, excess->what) : "";
}

const std::string deep = "it is more than 32 deep";

} // namespace

TEST_CASE("what is at the edge is taken, and the parser takes it too") {
    const std::string key = "a" + times(31, ".a") + " = 1\n";
    const std::string array = "x = " + times(32, "[") + times(32, "]") + "\n";
    const std::string tables = times(31, "a = {") + "a = 1" + times(31, "}") + "\n";
    for (const std::string &text : {key, array, tables, "[" + key.substr(0, 63) + "]\n"}) {
        same<std::string>("", told(text), text);
        CHECK_NOTHROW(toml::parse(text));
    }
}

TEST_CASE("what is past it is not") {
    same("line 1: " + deep, told("a" + times(32, ".a") + " = 1\n"), "a dotted key");
    same("line 1: " + deep, told("[a" + times(50000, ".a") + "]\n"), "a table's name");
    same("line 2: " + deep, told("b = 1\nx = " + times(33, "[")), "brackets");
    same("line 1: " + deep, told(times(33, "a={")), "tables in a line");
    same("line 1: " + deep, told(times(40, "\"a\" . ") + "a = 1"), "a key of quoted parts");
    same("line 1: " + deep, told("a" + times(32, " . a") + " = 1"), "spaces around dots");
}

TEST_CASE("what is a text is not counted") {
    for (const std::string &text :
         {"x = \"" + times(99, "[.") + "\"\n", "x = '" + times(99, "{.") + "'\n",
          "x = \"\"\"\n" + times(99, "[.\n") + "\"\"\"\n", "# " + times(99, "[.") + "\n",
          "x = \"\\\"" + times(99, "[.") + "\"\n", times(99, "x.y = 1.5\n"),
          "x = [" + times(99, "1.5, ") + "]\n"}) {
        same<std::string>("", told(text), text);
    }
    same("line 2: " + deep, told("x = \"a\ny = " + times(33, "[")),
         "a text that ends with its line");
}

TEST_CASE("a long text may end with quotation marks of its own") {
    for (const char quote : {'"', '\''}) {
        for (std::size_t marks = 3; marks <= 5; ++marks) {
            const std::string closing(marks, quote);
            const std::string text = "x = [" + std::string(3, quote) + "a" + closing + ", {a";
            same("line 1: " + deep, told(text + times(40000, ".a") + " = 1}]\n"), closing);
            same<std::string>("", told(text + ".a = \"" + times(40, ".") + "\"}]\n"), closing);
        }
    }
}

TEST_CASE("length") {
    same<std::string>("", told(std::string(longest_toml, '#')), "as long as may be");
    same<std::string>("line 1: the file has more than 1048576 bytes",
                      told(std::string(longest_toml + 1, '#')), "a byte more");
}

} // namespace gateway::tests
