#include "venue/shown_quotes.h"

#include "common/frame.h"

#include <optional>

namespace gateway {

namespace {

// How many quotes stand before the one of this name; nothing where it is no name of one.
std::optional<std::uint32_t> quotes_before(std::string_view name) {
    if (name.size() < 2 || name[0] != 'Q' || name[1] == '0') {
        return std::nullopt;
    }
    const auto number = number_of(name.substr(1));
    return number ? std::optional(*number - 1) : std::nullopt;
}

} // namespace

void ShownQuotes::was_given(const std::string &firm, const GivenFields &message) {
    const auto before = message.type == "S" ? quotes_before(message.quote) : std::nullopt;
    if (!before) {
        return;
    }
    const std::lock_guard lock(mutex_);
    std::vector<std::uint32_t> &shown = shown_[firm];
    const std::uint32_t place = place_of(message.bond);
    if (*before < shown.size()) {
        shown[*before] = place;
    } else if (*before == shown.size()) {
        shown.push_back(place);
    }
}

std::uint32_t ShownQuotes::place_of(std::string_view bond) {
    const auto found = places_.find(bond);
    if (found != places_.end()) {
        return found->second;
    }
    bonds_.emplace_back(bond);
    return places_.emplace(bond, static_cast<std::uint32_t>(bonds_.size() - 1)).first->second;
}

std::string ShownQuotes::bond_of(const std::string &firm, std::string_view quote) const {
    const auto before = quotes_before(quote);
    const std::lock_guard lock(mutex_);
    const auto found = shown_.find(firm);
    if (!before || found == shown_.end() || *before >= found->second.size()) {
        return {};
    }
    return bonds_[found->second[*before]];
}

} // namespace gateway
