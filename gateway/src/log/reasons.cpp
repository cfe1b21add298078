#include "log/reasons.h"

#include "common/frame.h"

#include <algorithm>
#include <stdexcept>

#include <fmt/format.h>

namespace gateway {

namespace {

constexpr std::string_view notes_flag = "--notes";
constexpr std::string_view why = "why ";
constexpr std::string_view trade = "trade ";

constexpr std::size_t longest_name = 40;
constexpr std::size_t longest_words = 100;
constexpr std::size_t longest_firm = 8;
constexpr std::size_t longest_count = 9; // digits of which trade of two firms it is

bool is_letter(char c) {
    return (c >= 'A' && c <= 'Z') || (c >= 'a' && c <= 'z');
}

bool is_digit(char c) {
    return c >= '0' && c <= '9';
}

bool is_capital_or_digit(char c) {
    return (c >= 'A' && c <= 'Z') || is_digit(c);
}

bool is_printable(char c) {
    return c >= ' ' && c <= '~' && c != '|';
}

bool has_form(std::string_view text, std::size_t longest, bool (*is_one)(char)) {
    return !text.empty() && text.size() <= longest && std::ranges::all_of(text, is_one);
}

std::string_view take_up_to(char end, std::string_view &text) {
    const std::size_t at = text.find(end);
    const std::string_view part = text.substr(0, at);
    text.remove_prefix(at == std::string_view::npos ? text.size() : at + 1);
    return part;
}

// Whether a name is DATE-INVESTOR-DEALER-K of this date, and this firm is one of the two.
bool is_trade_of(std::string_view name, std::string_view firm, std::string_view date) {
    const std::string_view day = take_up_to('-', name);
    const std::string_view investor = take_up_to('-', name);
    const std::string_view dealer = take_up_to('-', name);
    return day == date && has_form(investor, longest_firm, is_capital_or_digit) &&
           has_form(dealer, longest_firm, is_capital_or_digit) && investor != dealer &&
           (investor == firm || dealer == firm) && has_form(name, longest_count, is_digit) &&
           name.front() != '0';
}

} // namespace

void add_reason(Reasons &reasons, std::string_view name, std::string_view words) {
    const bool is_twice = std::ranges::any_of(
        reasons, [&](const auto &one) { return one.first == name || one.second == words; });
    if (is_twice || !has_form(name, longest_name, is_letter) ||
        !has_form(words, longest_words, is_printable)) {
        throw std::runtime_error(fmt::format("no reason: `{} {}`", name, words));
    }
    reasons.emplace(name, words);
}

Reasons read_reasons(std::string_view text) {
    Reasons reasons;
    while (!text.empty()) {
        std::string_view words = take_up_to('\n', text);
        if (!words.empty() && words.front() != '#') {
            const std::string_view name = take_up_to(' ', words);
            add_reason(reasons, name, words);
        }
    }
    return reasons;
}

const Reasons &built_in_reasons() {
    static const Reasons reasons = read_reasons(reasons_text());
    return reasons;
}

bool is_venue_note(std::string_view line) {
    return line.starts_with(why) || line.starts_with(trade);
}

VenueNote read_venue_note(std::string_view line) {
    std::string_view rest = line;
    VenueNote note;
    note.kind = rest.starts_with(why) ? VenueNote::Kind::why : VenueNote::Kind::trade;
    take_up_to(' ', rest);
    note.firm = take_up_to(' ', rest);
    const auto number = number_of(take_up_to(' ', rest));
    note.name = rest;
    if (!is_venue_note(line) || !number) {
        throw std::runtime_error(fmt::format("the venue gave a note of no form: {}", line));
    }
    note.number = *number;
    return note;
}

std::string told_by(const VenueNote &note, std::string_view firm, std::uint32_t number,
                    const Reasons &reasons, std::string_view date) {
    if (note.firm != firm || note.number != number) {
        throw std::runtime_error(
            fmt::format("the venue gave a note beside {}'s message {} that is of {}'s message {}",
                        firm, number, note.firm, note.number));
    }
    if (note.kind == VenueNote::Kind::trade) {
        if (!is_trade_of(note.name, firm, date)) {
            throw std::runtime_error(
                fmt::format("the venue named a trade that is none of {}'s: {}", firm, note.name));
        }
        return fmt::format("1003={}", note.name);
    }
    const auto found = reasons.find(note.name);
    if (found == reasons.end()) {
        throw std::runtime_error(
            fmt::format("the venue refuses {} for a reason that has no text: {}", firm, note.name));
    }
    return fmt::format("58={}", found->second);
}

std::vector<std::string> with_notes(std::vector<std::string> command, bool notes) {
    std::erase(command, notes_flag);
    if (notes) {
        command.emplace_back(notes_flag);
    }
    return command;
}

} // namespace gateway
