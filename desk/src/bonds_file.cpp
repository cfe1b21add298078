#include "bonds_file.h"

#include "toml_file.h"

#include <algorithm>
#include <array>
#include <utility>

namespace desk {

namespace {

constexpr int first_year = 1950, last_year = 2190; // of what the dates of a bond may be
constexpr int most_years = 100;                    // from its dated date to its maturity
constexpr std::size_t most_bonds = 4096;

template <typename Value, std::size_t count>
using Words = std::array<std::pair<std::string_view, Value>, count>;

constexpr Words<DayCount, 5> day_counts{{{"actual/actual ICMA", DayCount::actual_actual_icma},
                                         {"30/360", DayCount::thirty_360},
                                         {"30E/360", DayCount::thirty_e_360},
                                         {"actual/365", DayCount::actual_365},
                                         {"actual/360", DayCount::actual_360}}};

constexpr Words<BusinessDays, 5> calendars{
    {{"TARGET", BusinessDays::target},
     {"US government bonds", BusinessDays::us_government_bonds},
     {"US settlement", BusinessDays::us_settlement},
     {"United Kingdom", BusinessDays::united_kingdom},
     {"weekdays", BusinessDays::weekdays}}};

constexpr Words<YieldConvention, 3> conventions{
    {{"at coupon frequency", YieldConvention::at_coupon_frequency},
     {"yearly", YieldConvention::yearly},
     {"US street", YieldConvention::us_street}}};

// The value that a word of the file stands for.
template <typename Value, std::size_t count>
Value word_in(const TomlTable &row, std::string_view key, const Words<Value, count> &words) {
    const std::string text = row.text(key);
    std::string all;
    for (const auto &[word, value] : words) {
        if (text == word) {
            return value;
        }
        all += (all.empty() ? "'" : ", '") + std::string(word) + "'";
    }
    row.fail("'" + std::string(key) + "' has to be one of " + all);
}

Date date_in(const TomlTable &row, std::string_view key) {
    const Date date = row.date(key);
    if (date.year() < std::chrono::year(first_year) || date.year() > std::chrono::year(last_year)) {
        row.fail("'" + std::string(key) + "' has to be in the years " + std::to_string(first_year) +
                 " to " + std::to_string(last_year));
    }
    return date;
}

std::string currency_in(const TomlTable &row) {
    std::string text = row.text("currency");
    const bool is_code = text.size() == 3 && std::all_of(text.begin(), text.end(), [](char letter) {
                             return letter >= 'A' && letter <= 'Z';
                         });
    if (!is_code) {
        row.fail("'currency' has to be three capital letters");
    }
    return text;
}

int frequency_in(const TomlTable &row) {
    const auto frequency = static_cast<int>(row.number("frequency", 1, 12));
    if (frequency != 1 && frequency != 2 && frequency != 4 && frequency != 12) {
        row.fail("'frequency' has to be 1, 2, 4 or 12");
    }
    return frequency;
}

// Whether whole coupon periods lie between the first coupon and the maturity.
bool is_regular(const BondTerms &terms) {
    const Date from = *terms.first_coupon, to = terms.maturity;
    const auto months =
        (to.year() - from.year()).count() * 12 +
        (static_cast<int>(unsigned(to.month())) - static_cast<int>(unsigned(from.month())));
    const auto last_of = [](const Date &date) {
        return Date(std::chrono::year_month_day_last(date.year(), date.month() / std::chrono::last))
            .day();
    };
    // The day of the maturity, or the last one of a month that is shorter.
    const auto expected = terms.end_of_month && to.day() == last_of(to)
                              ? last_of(from)
                              : std::min(to.day(), last_of(from));
    return months >= 0 && months % (12 / terms.frequency) == 0 && from.day() == expected;
}

void check_dates(const TomlTable &row, const BondTerms &terms) {
    if (terms.maturity <= terms.dated) {
        row.fail("'maturity' has to be after 'dated'");
    }
    if (terms.maturity > terms.dated + std::chrono::years(most_years)) {
        row.fail("'maturity' has to be at most " + std::to_string(most_years) +
                 " years after 'dated'");
    }
    if (!terms.first_coupon) {
        return;
    }
    if (*terms.first_coupon <= terms.dated || *terms.first_coupon > terms.maturity) {
        row.fail("'first_coupon' has to be after 'dated' and not after 'maturity'");
    }
    if (*terms.first_coupon > terms.dated + std::chrono::months(24 / terms.frequency)) {
        row.fail("'first_coupon' has to be at most two coupon periods after 'dated'");
    }
    if (!is_regular(terms)) {
        row.fail("'first_coupon' has to be whole coupon periods before 'maturity'");
    }
}

BondTerms terms_in(const TomlTable &row) {
    row.allow({"id", "currency", "coupon", "frequency", "dated", "first_coupon", "maturity",
               "end_of_month", "day_count", "calendar", "ex_dividend_days", "settlement_days",
               "yield"});
    BondTerms terms;
    terms.currency = currency_in(row);
    terms.coupon = row.decimal("coupon", 0, 100);
    terms.frequency = frequency_in(row);
    terms.dated = date_in(row, "dated");
    if (row.has("first_coupon")) {
        terms.first_coupon = date_in(row, "first_coupon");
    }
    terms.maturity = date_in(row, "maturity");
    terms.end_of_month = row.has("end_of_month") && row.truth("end_of_month");
    terms.day_count = word_in(row, "day_count", day_counts);
    terms.business_days = word_in(row, "calendar", calendars);
    if (row.has("ex_dividend_days")) {
        terms.ex_dividend_days = static_cast<int>(row.number("ex_dividend_days", 0, 30));
    }
    terms.settlement_days = static_cast<int>(row.number("settlement_days", 0, 10));
    terms.yield = word_in(row, "yield", conventions);
    check_dates(row, terms);
    return terms;
}

} // namespace

BondTable read_bonds(const std::string &path, const Market &market) {
    const toml::table text = read_toml(path);
    const TomlTable file(path, "", text);
    file.allow({"bond"});
    const std::vector<TomlTable> rows = file.tables("bond");
    if (rows.size() > most_bonds) {
        file.fail("there are more than " + std::to_string(most_bonds) + " bonds");
    }
    BondTable bonds;
    for (const TomlTable &row : rows) {
        const std::string id = row.text("id");
        if (market.bond(id) == nullptr) {
            row.fail("'id' is '" + id + "', which is no bond of the market");
        }
        if (!bonds.emplace(id, terms_in(row)).second) {
            row.fail("'id' is '" + id + "', which the file has before");
        }
    }
    return bonds;
}

} // namespace desk
