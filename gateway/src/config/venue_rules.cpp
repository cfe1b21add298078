#include "config/venue_rules.h"

#include "common/price.h"

#include <algorithm>
#include <array>
#include <string>

namespace gateway {

namespace {

bool is_digit(char c) {
    return c >= '0' && c <= '9';
}
bool is_capital(char c) {
    return c >= 'A' && c <= 'Z';
}
bool is_name(std::string_view text) {
    return !text.empty() && text.size() <= 8 && is_capital(text.front()) &&
           std::ranges::all_of(text, [](char c) { return is_digit(c) || is_capital(c); });
}
bool is_firm(std::string_view text) {
    return is_name(text) && text != "VENUE" && text != "CLOCK";
}
bool is_bond(std::string_view text) {
    return text.size() == 12 &&
           std::ranges::all_of(text, [](char c) { return is_digit(c) || is_capital(c); });
}
bool is_grid(std::string_view text) {
    return text == "32" || text == "64" || text == "128" || text == "256";
}
bool is_price(std::string_view text) {
    return price_of(text).has_value();
}
bool is_currency(std::string_view text) {
    return text.size() == 3 && std::ranges::all_of(text, is_capital);
}
bool is_mic(std::string_view text) {
    return text.size() == 4 &&
           std::ranges::all_of(text, [](char c) { return is_digit(c) || is_capital(c); });
}

// The digits of an ISIN, in which each letter stands for two: A is 10.
std::string digits_in(std::string_view text) {
    std::string digits;
    for (const char c : text) {
        digits += is_digit(c) ? std::string(1, c) : std::to_string(c - 'A' + 10);
    }
    return digits;
}

// Each second digit from the right counts twice, and of what has two digits then their sum (ISO
// 6166): with a right last digit it is a multiple of ten.
int check_sum(std::string_view digits) {
    int sum = 0;
    for (std::size_t behind = 0; behind < digits.size(); ++behind) {
        const int digit = digits[digits.size() - 1 - behind] - '0';
        const int value = behind % 2 == 1 ? 2 * digit : digit;
        sum += value / 10 + value % 10;
    }
    return sum;
}
bool is_isin(std::string_view text) {
    return is_bond(text) && is_capital(text[0]) && is_capital(text[1]) && is_digit(text.back()) &&
           check_sum(digits_in(text)) % 10 == 0;
}
bool is_way_of_quoting(std::string_view text) {
    return text == "32nds" || text == "decimals";
}
bool is_short_text(std::string_view text) {
    return !text.empty() && text.size() <= 60 &&
           std::ranges::all_of(text, [](char c) { return static_cast<unsigned char>(c) >= ' '; });
}

constexpr std::int64_t million = 1'000'000;
constexpr std::string_view firm_form =
    "1 to 8 capital letters and digits, the first a letter, and neither VENUE nor CLOCK";
constexpr std::string_view traders_form =
    "1 to 16 names, each of 1 to 8 capital letters and digits, the first a letter";

constexpr std::string_view price_form = "a price in quotation marks, such as \"99.5\"";

constexpr std::array<KeyRule, 3> top = {{
    {"version", ValueKind::number, true, 1, newest_version, nullptr, "1, 2 or 3"},
    {"date", ValueKind::text, false, 0, 0, is_date, "a day as eight digits, such as 20250314"},
    {"mic", ValueKind::text, false, 0, 0, is_mic, "four capital letters and digits"},
}};
constexpr std::array<KeyRule, 8> bond = {{
    {"id", ValueKind::text, true, 0, 0, is_bond, "12 capital letters and digits"},
    {"grid", ValueKind::number, true, 32, 256, is_grid, "32, 64, 128 or 256", 2},
    {"low", ValueKind::text, false, 0, 0, is_price, price_form, 3},
    {"high", ValueKind::text, false, 0, 0, is_price, price_form, 3},
    {"name", ValueKind::text, false, 0, 0, is_short_text, "1 to 60 bytes of text"},
    {"isin", ValueKind::text, false, 0, 0, is_isin, "an ISIN, whose last digit is right"},
    {"currency", ValueKind::text, false, 0, 0, is_currency, "three capital letters"},
    {"quoted", ValueKind::text, false, 0, 0, is_way_of_quoting, "\"32nds\" or \"decimals\""},
}};
constexpr std::array<KeyRule, 4> dealer = {{
    {"name", ValueKind::text, true, 0, 0, is_firm, firm_form},
    {"traders", ValueKind::texts, true, 1, 16, is_name, traders_form},
    {"quotes", ValueKind::number, true, 1, 4096, nullptr, "from 1 to 4,096"},
    {"exposure", ValueKind::number, true, 1, 1'000'000'000 * million, nullptr,
     "from 1 to 1,000,000,000,000,000"},
}};
constexpr std::array<KeyRule, 5> investor = {{
    {"name", ValueKind::text, true, 0, 0, is_firm, firm_form},
    {"traders", ValueKind::texts, true, 1, 16, is_name, traders_form},
    {"requests", ValueKind::number, true, 1, 1024, nullptr, "from 1 to 1,024"},
    {"open", ValueKind::number, true, 1, 1024, nullptr, "from 1 to 1,024"},
    {"quantity", ValueKind::number, true, 1, million *million, nullptr,
     "from 1 to 1,000,000,000,000"},
}};
const std::array<RowRule, 3> rows = {{
    {"bond", "id", 1024, "", 0, bond},
    {"dealer", "name", 64, "quotes", 65'536, dealer},
    {"investor", "name", 64, "requests", 4096, investor},
}};

} // namespace

std::span<const KeyRule> top_rules() {
    return top;
}

std::span<const RowRule> row_rules() {
    return rows;
}

// The form of FORMATS.md: whether the month has that day is not looked at.
bool is_date(std::string_view text) {
    return text.size() == 8 && std::ranges::all_of(text, is_digit) && text.substr(4, 2) >= "01" &&
           text.substr(4, 2) <= "12" && text.substr(6) >= "01" && text.substr(6) <= "31";
}

} // namespace gateway
