// Faults of a venue's configuration: each is told with its line, its row, its key, the value and
// what is allowed.
#define DOCTEST_CONFIG_IMPLEMENT_WITH_MAIN
#include <doctest/doctest.h>

#include "common/toml_bounds.h"
#include "config/venue_file.h"
#include "venue_rows.h"

#include <array>
#include <fstream>
#include <random>
#include <sstream>

#include <fmt/format.h>

using namespace gateway;

namespace {

const std::string lawful =
    "version = 2\n" +
    tests::bond_row("grid = 32\nname = \"Treasury 4 % 2034\"\ncurrency = \"USD\"\n"
                    "quoted = \"32nds\"\n") +
    tests::dealer_row({.traders = R"("T1", "T7")"}) + tests::investor_row();

// One change of the lawful text, and the fault that it gives.
struct Case {
    const char *name;
    std::string_view was;
    std::string_view is;
    std::string_view told;
};

constexpr std::array cases = {
    Case{"a misspelt key", "exposure = ", "exposre = ",
         "venue.toml: line 12: dealer DLR1: exposre is no key of a dealer; exposure?"},
    Case{"a key of another table", "open = 16", "open = 16\nexposure = 5",
         "venue.toml: line 18: investor INV1: exposure is no key of an investor"},
    Case{"a misspelt table", "[[bond]]", "[[bonds]]",
         "venue.toml: line 2: bonds is no key of the venue's configuration; bond?"},
    Case{"a limit", "quotes = 4096", "quotes = 4097",
         "venue.toml: line 11: dealer DLR1: quotes = 4097: it has to be from 1 to 4,096"},
    Case{"a number as a text", "open = 16", "open = \"16\"",
         "venue.toml: line 17: investor INV1: open = \"16\": it has to be from 1 to 1,024"},
    Case{"a bond's id", "BONDA0000001", "BONDA000001",
         "venue.toml: line 3: bond BONDA000001: id = \"BONDA000001\": it has to be 12 capital "
         "letters and digits"},
    Case{"a grid that is none", "grid = 32", "grid = 33",
         "venue.toml: line 4: bond BONDA0000001: grid = 33: it has to be 32, 64, 128 or 256"},
    Case{"no grid", "grid = 32\n", "",
         "venue.toml: line 2: bond BONDA0000001: grid is missing: it has to be 32, 64, 128 or 256"},
    Case{"no grid in version 3", "version = 2\n[[bond]]\nid = \"BONDA0000001\"\ngrid = 32\n",
         "version = 3\n[[bond]]\nid = \"BONDA0000001\"\n",
         "venue.toml: line 2: bond BONDA0000001: grid is missing: it has to be 32, 64, 128 or 256"},
    Case{"a grid in version 1", "version = 2", "version = 1",
         "venue.toml: line 4: bond BONDA0000001: grid = 32: it has no effect before version 2"},
    Case{"a version of tomorrow", "version = 2", "version = 4",
         "venue.toml: line 1: version = 4: it has to be 1, 2 or 3"},
    Case{
        "a band in version 2", "grid = 32", "grid = 32\nlow = \"99\"\nhigh = \"101\"",
        "venue.toml: line 5: bond BONDA0000001: low = \"99\": it has no effect before version 3\n"
        "venue.toml: line 6: bond BONDA0000001: high = \"101\": it has no effect before version 3"},
    Case{"a date that is none", "version = 2", "version = 2\ndate = \"2025-03-14\"",
         "venue.toml: line 2: date = \"2025-03-14\": it has to be a day as eight digits, such as "
         "20250314"},
    Case{"a firm with the clock's name", "\"DLR1\"", "\"CLOCK\"",
         "venue.toml: line 9: dealer CLOCK: name = \"CLOCK\": it has to be 1 to 8 capital letters "
         "and digits, the first a letter, and neither VENUE nor CLOCK"},
    Case{"a firm twice", "\"INV1\"", "\"DLR1\"",
         "venue.toml: line 14: investor DLR1: name = \"DLR1\": line 9 has it already"},
    Case{"a trader twice", "\"T7\"", "\"T1\"",
         "venue.toml: line 10: dealer DLR1: traders has \"T1\" twice"},
    Case{
        "no trader", "[\"T8\"]", "[]",
        "venue.toml: line 15: investor INV1: traders = a list: it has to be 1 to 16 names, each of "
        "1 to 8 capital letters and digits, the first a letter"},
    Case{"a limit that is missing", "quantity = 5000000\n", "",
         "venue.toml: line 13: investor INV1: quantity is missing: it has to be from 1 to "
         "1,000,000,000,000"},
    Case{"an ISIN whose last digit is wrong", "currency = \"USD\"", "isin = \"US0378331006\"",
         "venue.toml: line 6: bond BONDA0000001: isin = \"US0378331006\": it has to be an ISIN, "
         "whose last digit is right"},
    Case{"an ISIN with two digits changed round", "currency = \"USD\"", "isin = \"US0373831005\"",
         "venue.toml: line 6: bond BONDA0000001: isin = \"US0373831005\": it has to be an ISIN, "
         "whose last digit is right"},
    Case{"an ISIN of another country's form", "currency = \"USD\"", "isin = \"0S0000000009\"",
         "venue.toml: line 6: bond BONDA0000001: isin = \"0S0000000009\": it has to be an ISIN, "
         "whose last digit is right"},
    Case{"an ISIN without a digit", "currency = \"USD\"", "isin = \"US037833100A\"",
         "venue.toml: line 6: bond BONDA0000001: isin = \"US037833100A\": it has to be an ISIN, "
         "whose last digit is right"},
    Case{"a market's code", "version = 2", "version = 2\nmic = \"xmir\"",
         "venue.toml: line 2: mic = \"xmir\": it has to be four capital letters and digits"},
    Case{"a market's code as a number", "version = 2", "version = 2\nmic = 1234",
         "venue.toml: line 2: mic = 1234: it has to be four capital letters and digits"},
    Case{"a market's code of a bond",
         "currency = ", "mic = ", "venue.toml: line 6: bond BONDA0000001: mic is no key of a bond"},
    Case{"a currency", "\"USD\"", "\"dollar\"",
         "venue.toml: line 6: bond BONDA0000001: currency = \"dollar\": it has to be three capital "
         "letters"},
    Case{"a key twice", "open = 16", "open = 16\nopen = 16", "venue.toml: line 18: "},
    Case{"a text with a line feed", "\"USD\"", "\"US\\nD\"",
         "venue.toml: line 6: bond BONDA0000001: currency = \"US?D\": it has to be three capital "
         "letters"},
};

std::string changed(std::string_view was, std::string_view is) {
    std::string text = lawful;
    const std::size_t at = text.find(was);
    REQUIRE(at != std::string::npos);
    return text.replace(at, was.size(), is);
}

std::string told_of(const std::string &text) {
    try {
        read_venue_file("venue.toml", text, "20261127");
    } catch (const VenueFileFaults &faults) {
        return faults.what();
    }
    return "no fault";
}

std::string rows_of(std::string_view table, int count, std::string_view rest) {
    std::string rows;
    for (int at = 0; at < count; ++at) {
        rows += fmt::format("[[{}]]\nname = \"F{}\"\ntraders = [\"T1\"]\n{}\n", table, at, rest);
    }
    return rows;
}

} // namespace

TEST_CASE("a lawful configuration is given to the venue with the day's date in front") {
    const VenueFile venue = read_venue_file("venue.toml", lawful, "20261127");
    CHECK(venue.date == "20261127");
    CHECK(venue.firms == std::vector<std::string>{"DLR1", "INV1"});
    CHECK(venue.text == "date = \"20261127\"\n" + lawful);
}

TEST_CASE("an ISIN and a market's code are no fault where they are right") {
    for (const auto *isin : {"US0378331005", "GB0002634946", "DE0001102580", "AU0000XVGZA3"}) {
        const std::string text =
            changed("currency = ", fmt::format("isin = \"{}\"\ncurrency = ", isin));
        CHECK(told_of("mic = \"XMIR\"\n" + text) == "no fault");
    }
}

TEST_CASE("a date of its own stays, and the text with it, but for a line feed at its end") {
    const std::string own = "date = \"20250314\"\n" + lawful;
    const VenueFile venue =
        read_venue_file("venue.toml", own.substr(0, own.size() - 1), "20261127");
    CHECK(venue.date == "20250314");
    CHECK(venue.text == own);
}

TEST_CASE("each fault names its line, its row, its key, the value and what is allowed") {
    for (const Case &each : cases) {
        SUBCASE(each.name) {
            const std::string told = told_of(changed(each.was, each.is));
            CAPTURE(told);
            CHECK(told.find(each.told) != std::string::npos);
        }
    }
}

TEST_CASE("each fault of a band is told, in version 3") {
    struct Band {
        std::string_view ends;
        std::string told; // behind the bond
    };
    const std::string form = "it has to be a price in quotation marks, such as \"99.5\"";
    for (const Band &band :
         {Band{"low = \"99\"\nhigh = \"101\"\n", ""}, Band{"low = \"99\"\nhigh = \"099.0\"\n", ""},
          Band{"low = \"0.03125\"\nhigh = \"999.96875\"\n", ""},
          Band{"low = \"99\"\n", "high is missing: a band has low and high"},
          Band{"high = \"99\"\n", "low is missing: a band has low and high"},
          Band{"low = 99\nhigh = \"101\"\n", "low = 99: " + form},
          Band{"low = \"99-16\"\nhigh = \"101\"\n", "low = \"99-16\": " + form},
          Band{"low = \"99\"\nhigh = \"1000\"\n", "high = \"1000\": " + form},
          Band{"low = \"-99\"\nhigh = \"101\"\n", "low = \"-99\": " + form},
          Band{"low = \"99\"\nhigh = \"99.501\"\n", "high = \"99.501\": " + form},
          Band{"low = \"99\"\nhigh = \"99.515625\"\n",
               "high = \"99.515625\": it has to be on the bond's grid of 1/32"},
          Band{"low = \"101.5\"\nhigh = \"101\"\n",
               "low = \"101.5\": it has to be at most high, \"101\""}}) {
        CAPTURE(band.ends);
        std::string text = changed("version = 2", "version = 3");
        text.insert(text.find("name ="), band.ends);
        const std::string told = told_of(text);
        CAPTURE(told);
        const std::string title = ": bond BONDA0000001: ";
        CHECK((band.told.empty() ? told == "no fault"
                                 : told.ends_with(title + std::string(band.told))));
        CHECK(told.find('\n') == std::string::npos);
    }
}

TEST_CASE("all faults are told, in the order of their lines") {
    std::string text = changed("quotes = 4096", "quotes = 0");
    text.replace(text.find("open = 16"), 9, "opn = 16");
    const std::string told = told_of(text);
    CHECK(told == "venue.toml: line 11: dealer DLR1: quotes = 0: it has to be from 1 to 4,096\n"
                  "venue.toml: line 13: investor INV1: open is missing: it has to be from 1 to "
                  "1,024\n"
                  "venue.toml: line 17: investor INV1: opn is no key of an investor; open?");
}

TEST_CASE("the quotes of all dealers are at most 65,536") {
    const std::string rest = "quotes = 4096\nexposure = 1";
    const std::string head = "version = 2\n";
    CHECK(told_of(head + rows_of("dealer", 16, rest)) == "no fault");
    CHECK(told_of(head + rows_of("dealer", 17, rest)) ==
          "venue.toml: line 85: dealer F16: quotes = 4096: the dealers up to this one have 69632, "
          "and all may have 65536");
}

TEST_CASE("a value of any length takes one short line") {
    const std::string told = told_of(changed("\"USD\"", "\"" + std::string(100'000, 'x') + "\""));
    CHECK(told.size() < 200);
}

TEST_CASE("of many faults the first fifty are told") {
    const std::string told = told_of("version = 2\n" + rows_of("dealer", 60, "quotes = 0"));
    CHECK(std::count(told.begin(), told.end(), '\n') == 50);
    CHECK(told.ends_with("venue.toml: and 70 faults more"));
}

TEST_CASE("a key with a letter less is told with the key that was meant, whichever it is") {
    std::mt19937 draw(20261127); // NOLINT: the same faults each time
    const std::array<std::string_view, 9> keys = {"traders",  "exposure", "requests",
                                                  "quantity", "currency", "quoted",
                                                  "quotes",   "grid",     "name"};
    for (int turn = 0; turn < 50; ++turn) {
        const std::string_view key = keys[draw() % keys.size()];
        std::string written(key);
        written.erase(draw() % written.size(), 1);
        CAPTURE(written);
        const std::string told =
            told_of(changed(fmt::format("\n{} = ", key), fmt::format("\n{} = ", written)));
        CHECK(told.find(fmt::format("; {}?", key)) != std::string::npos);
    }
}

TEST_CASE("what is taken is taken from entry 0 too, where its date stands above it") {
    const std::string date = "date = \"20261124\"\n";
    std::string text = lawful;
    text += std::string(longest_toml - date.size() - text.size() - 1, '#') + "\n";
    CHECK(read_venue_file("venue.toml", text, "20261124").text.size() == longest_toml);
    CHECK_THROWS_WITH_AS(read_venue_file("venue.toml", text + "#", "20261124"),
                         "venue.toml: line 1: with its date the file has more than 1048576 bytes",
                         VenueFileFaults);
}
