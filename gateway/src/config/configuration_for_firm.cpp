#include "config/configuration_for_firm.h"

#include "config/config_section.h"

#include <sstream>
#include <stdexcept>
#include <string_view>

#include <fmt/format.h>
#include <toml++/toml.h>

namespace gateway {

namespace {

bool is_named(const toml::table &row, const std::string &firm) {
    return row["name"].value_or(std::string()) == firm;
}

// The rows of an array, one behind the other; of those that are not the firm's own `others` says
// what is told.
enum class Others { whole, name, nothing };

toml::array rows_for(const toml::table &venue, std::string_view kind, const std::string &firm,
                     Others others) {
    toml::array told;
    const toml::array *rows = venue[kind].as_array();
    for (std::size_t at = 0; rows != nullptr && at < rows->size(); ++at) {
        const toml::table &row = *rows->get(at)->as_table();
        if (others == Others::whole || is_named(row, firm)) {
            told.push_back(row);
        } else if (others == Others::name) {
            told.push_back(toml::table{{"name", row["name"].value_or(std::string())}});
        }
    }
    return told;
}

bool has_own_row(const toml::array &rows, const std::string &firm) {
    for (std::size_t at = 0; at < rows.size(); ++at) {
        if (is_named(*rows.get(at)->as_table(), firm)) {
            return true;
        }
    }
    return false;
}

} // namespace

std::string configuration_for_firm(const std::string &configuration, const std::string &firm) {
    const toml::table venue = parse("entry 0", configuration);
    const toml::array dealers = rows_for(venue, "dealer", firm, Others::name);
    const toml::array investors = rows_for(venue, "investor", firm, Others::nothing);
    if (!has_own_row(dealers, firm) && investors.empty()) {
        throw std::runtime_error(fmt::format("the venue has no firm {}", firm));
    }
    toml::table told{{"version", venue["version"].value_or(std::int64_t{1})}};
    told.insert("bond", rows_for(venue, "bond", firm, Others::whole));
    if (!dealers.empty()) {
        told.insert("dealer", dealers);
    }
    if (!investors.empty()) {
        told.insert("investor", investors);
    }
    std::ostringstream text;
    text << toml::default_formatter(told, {}) << '\n';
    return text.str();
}

} // namespace gateway
