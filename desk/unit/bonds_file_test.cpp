// Tests what the desk takes from bonds.toml, and how it names each fault.
#include <doctest/doctest.h>

#include "bonds_file.h"
#include "unit.h"

#include <fstream>
#include <stdexcept>
#include <string>

using namespace desk;
using namespace std::chrono_literals;
using desk_tests::Folder;

namespace {

const std::string good = "[[bond]]\nid = \"A\"\ncurrency = \"USD\"\ncoupon = 4.125\n"
                         "frequency = 2\ndated = 2024-03-31\nfirst_coupon = 2024-09-30\n"
                         "maturity = 2029-03-31\nend_of_month = true\n"
                         "day_count = \"actual/actual ICMA\"\n"
                         "calendar = \"US government bonds\"\nex_dividend_days = 0\n"
                         "settlement_days = 1\nyield = \"US street\"\n";

Market market() {
    Market market;
    market.bonds = {Bond{"A", "A", 256}, Bond{"B", "B", 32}};
    return market;
}

// The good file with one text in place of another.
BondTable bonds_with(const std::string &old, const std::string &fresh) {
    const Folder folder;
    std::string text = good;
    const std::size_t at = text.find(old);
    REQUIRE(at != std::string::npos);
    text.replace(at, old.size(), fresh);
    std::ofstream(folder.file("bonds.toml")) << text;
    return read_bonds(folder.file("bonds.toml"), market());
}

// The fault's words, or nothing.
std::string fault_of(const std::string &old, const std::string &fresh) {
    try {
        bonds_with(old, fresh);
        return {};
    } catch (const std::runtime_error &fault) {
        return fault.what();
    }
}

} // namespace

TEST_CASE("the static data of a bond is read; another bond has none") {
    const Folder folder;
    std::ofstream(folder.file("bonds.toml")) << good;
    const BondTable bonds = read_bonds(folder.file("bonds.toml"), market());
    REQUIRE(bonds.size() == 1);
    const BondTerms &terms = bonds.at("A");
    CHECK(terms.currency == "USD");
    CHECK(terms.coupon == 4.125);
    CHECK(terms.first_coupon == Date(2024y / 9 / 30));
    CHECK(terms.maturity == Date(2029y / 3 / 31));
    CHECK(terms.end_of_month);
    CHECK(terms.dated == Date(2024y / 3 / 31));
    CHECK(terms.frequency == 2);
    CHECK(terms.day_count == DayCount::actual_actual_icma);
    CHECK(terms.business_days == BusinessDays::us_government_bonds);
    CHECK(terms.ex_dividend_days == 0);
    CHECK(terms.settlement_days == 1);
    CHECK(terms.yield == YieldConvention::us_street);
}

TEST_CASE("each word of bonds.toml has its meaning") {
    const auto with = [](const std::string &old, const std::string &fresh) {
        return bonds_with(old, fresh).at("A");
    };
    for (const auto &[word, meaning] :
         {std::pair("actual/actual ICMA", DayCount::actual_actual_icma),
          {"30/360", DayCount::thirty_360},
          {"30E/360", DayCount::thirty_e_360},
          {"actual/365", DayCount::actual_365},
          {"actual/360", DayCount::actual_360}}) {
        CHECK(with("actual/actual ICMA", word).day_count == meaning);
    }
    for (const auto &[word, meaning] : {std::pair("TARGET", BusinessDays::target),
                                        {"US government bonds", BusinessDays::us_government_bonds},
                                        {"US settlement", BusinessDays::us_settlement},
                                        {"United Kingdom", BusinessDays::united_kingdom},
                                        {"weekdays", BusinessDays::weekdays}}) {
        CHECK(with("US government bonds", word).business_days == meaning);
    }
    for (const auto &[word, meaning] :
         {std::pair("at coupon frequency", YieldConvention::at_coupon_frequency),
          {"yearly", YieldConvention::yearly},
          {"US street", YieldConvention::us_street}}) {
        CHECK(with("US street", word).yield == meaning);
    }
    CHECK_FALSE(with("end_of_month = true", "end_of_month = false").end_of_month);
    CHECK_FALSE(with("end_of_month = true\n", "").end_of_month);
    CHECK_FALSE(with("first_coupon = 2024-09-30\n", "").first_coupon);
    CHECK(with("ex_dividend_days = 0\n", "").ex_dividend_days == 0);
    CHECK(with("ex_dividend_days = 0", "ex_dividend_days = 30").ex_dividend_days == 30);
    CHECK(with("settlement_days = 1", "settlement_days = 10").settlement_days == 10);
    CHECK(with("4.125", "0").coupon == 0);
    CHECK(with("4.125", "100").coupon == 100);
}

TEST_CASE("dates of a bond are taken up to each limit, and not beyond it") {
    const std::string dates =
        "dated = 2024-03-31\nfirst_coupon = 2024-09-30\nmaturity = 2029-03-31\n";
    const auto fault = [&](const char *dated, const char *first, const char *maturity,
                           int frequency = 2) {
        std::string fresh = std::string("dated = ") + dated + "\n";
        fresh += *first == '\0' ? "" : std::string("first_coupon = ") + first + "\n";
        fresh += std::string("maturity = ") + maturity + "\n";
        return fault_of("frequency = 2\n" + dates,
                        "frequency = " + std::to_string(frequency) + "\n" + fresh);
    };
    const auto named = [](const std::string &told, const char *words) {
        CAPTURE(told);
        CHECK(told.find(words) != std::string::npos);
    };
    CHECK(fault("1950-01-01", "", "1960-01-01") == "");
    named(fault("1949-12-31", "", "1960-01-01"), "'dated' has to be in the years 1950 to 2190");
    CHECK(fault("2100-01-01", "", "2190-12-31") == "");
    named(fault("2100-01-01", "", "2191-01-01"), "'maturity' has to be in the years");
    CHECK(fault("2024-03-31", "", "2124-03-31") == "");
    named(fault("2024-03-31", "", "2124-04-01"), "'maturity' has to be at most 100 years");
    CHECK(fault("2024-03-31", "", "2024-04-01") == "");
    named(fault("2024-03-31", "", "2024-03-31"), "'maturity' has to be after 'dated'");
    // The first coupon: two periods behind `dated` at most, whole periods before the maturity.
    CHECK(fault("2024-03-15", "2025-03-15", "2029-03-15") == "");
    named(fault("2024-03-14", "2025-03-15", "2029-03-15"), "at most two coupon periods");
    CHECK(fault("2024-09-14", "2024-09-15", "2029-03-15") == "");
    named(fault("2024-09-15", "2024-09-15", "2029-03-15"), "has to be after 'dated'");
    CHECK(fault("2028-09-15", "2029-03-15", "2029-03-15") == "");
    named(fault("2028-09-15", "2029-03-16", "2029-03-15"), "and not after 'maturity'");
    named(fault("2024-03-15", "2024-10-15", "2029-03-15"), "has to be whole coupon periods");
    named(fault("2024-03-15", "2024-09-14", "2029-03-15"), "has to be whole coupon periods");
    CHECK(fault("2024-03-15", "2024-06-15", "2029-03-15", 4) == "");
    named(fault("2024-03-15", "2024-05-15", "2029-03-15", 4), "has to be whole coupon periods");
    CHECK(fault("2024-03-15", "2024-04-15", "2029-03-15", 12) == "");
    named(fault("2024-03-15", "2024-05-16", "2029-03-15", 12), "at most two coupon periods");
    CHECK(fault("2023-12-15", "2024-03-15", "2029-03-15", 1) == "");
    named(fault("2023-12-15", "2024-09-15", "2029-03-15", 1), "has to be whole coupon periods");
    // Due at the end of each month, since the maturity is.
    CHECK(fault("2024-02-10", "2024-08-31", "2029-02-28") == "");
    named(fault("2024-02-10", "2024-08-28", "2029-02-28"), "has to be whole coupon periods");
    CHECK(fault("2024-02-10", "2024-08-15", "2029-02-15") == "");
}

TEST_CASE("each fault of bonds.toml names its key") {
    struct Row {
        const char *old, *fresh, *named;
    };
    for (const Row &row : {
             Row{"id = \"A\"", "id = \"C\"", "'id' is 'C', which is no bond of the market"},
             Row{"\"USD\"", "\"usd\"", "'currency'"},
             Row{"\"USD\"", "5", "'currency'"},
             Row{"4.125", "true", "'coupon'"},
             Row{"4.125", "-1", "'coupon'"},
             Row{"4.125", "100.1", "'coupon' has to be a number from 0 to 100"},
             Row{"4.125", "nan", "'coupon'"},
             Row{"4.125", "inf", "'coupon'"},
             Row{"frequency = 2", "frequency = 3", "'frequency' has to be 1, 2, 4 or 12"},
             Row{"frequency = 2", "frequency = 0", "'frequency'"},
             Row{"2024-03-31", "\"2024-03-31\"", "'dated'"},
             Row{"2024-03-31", "1800-03-31", "'dated'"},
             Row{"2024-03-31", "2029-03-31", "'maturity' has to be after 'dated'"},
             Row{"2024-09-30", "2024-03-31", "'first_coupon' has to be after 'dated'"},
             Row{"2024-09-30", "2024-10-30", "'first_coupon' has to be whole coupon periods"},
             Row{"2024-09-30", "2024-09-29", "'first_coupon' has to be whole coupon periods"},
             Row{"2024-09-30", "2026-09-30", "'first_coupon' has to be at most two"},
             Row{"2029-03-31", "2140-03-31", "'maturity' has to be at most 100 years"},
             Row{"end_of_month = true", "end_of_month = 1", "'end_of_month'"},
             Row{"actual/actual ICMA", "act/act", "'day_count' has to be one of"},
             Row{"US government bonds", "Mars", "'calendar' has to be one of"},
             Row{"ex_dividend_days = 0", "ex_dividend_days = 31", "'ex_dividend_days'"},
             Row{"settlement_days = 1", "settlement_days = -1", "'settlement_days'"},
             Row{"settlement_days = 1", "settlement_days = 11", "'settlement_days'"},
             Row{"settlement_days = 1\n", "", "'settlement_days'"},
             Row{"ex_dividend_days = 0", "ex_dividend_days = -1", "'ex_dividend_days'"},
             Row{"\"USD\"", "\"USDX\"", "'currency' has to be three capital letters"},
             Row{"\"USD\"", "\"US1\"", "'currency' has to be three capital letters"},
             Row{"US street", "true", "'yield' has to be one of"},
             Row{"[[bond]]", "more = 1\n[[bond]]", "there is no key 'more'"},
             Row{"yield =", "yields = 1\nyield =", "there is no key 'yields'"},
             Row{"currency = \"USD\"\n", "", "'currency' is missing"},
         }) {
        CAPTURE(row.fresh);
        const std::string fault = fault_of(row.old, row.fresh);
        CAPTURE(fault);
        CHECK(fault.find(row.named) != std::string::npos);
        CHECK(fault.find("bonds.toml") != std::string::npos);
    }
    CHECK(fault_of("[[bond]]", good + "[[bond]]").find("which the file has before") !=
          std::string::npos);
    CHECK(fault_of("[[bond]]", "[[bond]]").empty());
}
