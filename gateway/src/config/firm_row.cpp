#include "config/firm_row.h"

#include "config/config_section.h"

#include <stdexcept>
#include <string_view>

#include <fmt/format.h>
#include <toml++/toml.h>

namespace gateway {

namespace {

// The row of an array in which this key has this text; null where none has.
const toml::table *row_with(const toml::table &venue, std::string_view kind, std::string_view key,
                            const std::string &text) {
    const toml::array *rows = venue[kind].as_array();
    for (std::size_t at = 0; rows != nullptr && at < rows->size(); ++at) {
        const toml::table *row = rows->get(at)->as_table();
        if (row != nullptr && (*row)[key].value_or(std::string()) == text) {
            return row;
        }
    }
    return nullptr;
}

std::vector<std::string> traders_of(const toml::table &row) {
    std::vector<std::string> traders;
    const toml::array *names = row["traders"].as_array();
    for (std::size_t at = 0; names != nullptr && at < names->size(); ++at) {
        traders.push_back(names->get(at)->value_or(std::string()));
    }
    return traders;
}

} // namespace

FirmRow firm_row(const std::string &configuration, const std::string &firm) {
    const toml::table venue = parse("entry 0", configuration);
    const toml::table *dealer = row_with(venue, "dealer", "name", firm);
    const toml::table *row = dealer != nullptr ? dealer : row_with(venue, "investor", "name", firm);
    if (row == nullptr) {
        throw std::runtime_error(fmt::format("the venue has no firm {}", firm));
    }
    return {dealer != nullptr, traders_of(*row)};
}

bool has_bond(const std::string &configuration, const std::string &bond) {
    return row_with(parse("entry 0", configuration), "bond", "id", bond) != nullptr;
}

} // namespace gateway
