#include "toml_file.h"

#include "common/regular_file.h"
#include "common/toml_bounds.h"

#include <algorithm>
#include <filesystem>
#include <fstream>
#include <sstream>
#include <stdexcept>

namespace desk {

namespace {

// As much as a configuration may have, and a byte more where it has more. A pipe or a device is not
// read: it may have no end.
std::string read_bounded(const std::string &path) {
    std::ifstream in;
    if (!gateway::may_have_no_end(path)) {
        in.open(path, std::ios::binary);
    }
    std::string text(gateway::longest_toml + 1, '\0');
    if (!in.is_open() ||
        (!in.read(text.data(), static_cast<std::streamsize>(text.size())) && !in.eof())) {
        throw std::runtime_error(path + ": can't be read");
    }
    text.resize(static_cast<std::size_t>(in.gcount()));
    return text;
}

} // namespace

toml::table read_toml(const std::string &path) {
    const std::string bytes = read_bounded(path);
    if (const auto excess = gateway::excess_of(bytes)) {
        throw std::runtime_error(path + ": line " + std::to_string(excess->line) + ": " +
                                 excess->what);
    }
    try {
        return toml::parse(bytes);
    } catch (const toml::parse_error &fault) {
        std::ostringstream text;
        text << path << ": line " << fault.source().begin.line << ": " << fault.description();
        throw std::runtime_error(text.str());
    }
}

void TomlTable::fail(const std::string &what) const {
    throw std::runtime_error(path_ + ": " + (place_.empty() ? "" : place_ + ": ") + what);
}

void TomlTable::allow(std::initializer_list<std::string_view> keys) const {
    for (const auto &[key, value] : *table_) {
        if (std::find(keys.begin(), keys.end(), key.str()) == keys.end()) {
            fail("there is no key '" + std::string(key.str()) + "'");
        }
    }
}

std::string TomlTable::text(std::string_view key) const {
    const auto value = (*table_)[key].value<std::string>();
    if (!value || value->empty()) {
        fail("'" + std::string(key) + "' is missing, or no text");
    }
    return *value;
}

std::string TomlTable::file(std::string_view key) const {
    const auto folder = std::filesystem::absolute(path_).parent_path();
    return (folder / text(key)).lexically_normal().string();
}

std::int64_t TomlTable::number(std::string_view key, std::int64_t least,
                               std::int64_t greatest) const {
    const auto value = (*table_)[key].value_exact<std::int64_t>();
    if (!value || *value < least || *value > greatest) {
        fail("'" + std::string(key) + "' has to be a number from " + std::to_string(least) +
             " to " + std::to_string(greatest));
    }
    return *value;
}

double TomlTable::decimal(std::string_view key, double least, double greatest) const {
    const auto value = (*table_)[key].value<double>();
    if ((*table_)[key].is_boolean() || !value || !(*value >= least && *value <= greatest)) {
        std::ostringstream range;
        range << least << " to " << greatest;
        fail("'" + std::string(key) + "' has to be a number from " + range.str());
    }
    return *value;
}

bool TomlTable::truth(std::string_view key) const {
    const auto value = (*table_)[key].value_exact<bool>();
    if (!value) {
        fail("'" + std::string(key) + "' has to be true or false");
    }
    return *value;
}

std::chrono::year_month_day TomlTable::date(std::string_view key) const {
    const auto value = (*table_)[key].value_exact<toml::date>();
    if (!value) {
        fail("'" + std::string(key) + "' is missing, or no date such as 2030-06-15");
    }
    return std::chrono::year(value->year) / value->month / value->day;
}

std::vector<std::string> TomlTable::texts(std::string_view key) const {
    const toml::array *array = (*table_)[key].as_array();
    if (array == nullptr) {
        fail("'" + std::string(key) + "' is missing, or no list of texts");
    }
    std::vector<std::string> all;
    for (const toml::node &node : *array) {
        const auto value = node.value<std::string>();
        if (!value) {
            fail("'" + std::string(key) + "' has something that is no text");
        }
        all.push_back(*value);
    }
    return all;
}

TomlTable TomlTable::table(std::string_view key) const {
    const toml::table *table = (*table_)[key].as_table();
    if (table == nullptr) {
        fail("there is no part [" + std::string(key) + "]");
    }
    return TomlTable(path_, "[" + std::string(key) + "]", *table);
}

std::vector<TomlTable> TomlTable::tables(std::string_view key) const {
    std::vector<TomlTable> all;
    const toml::array *array = (*table_)[key].as_array();
    for (std::size_t at = 0; array != nullptr && at < array->size(); ++at) {
        const toml::table *table = array->get(at)->as_table();
        const std::string place = "[[" + std::string(key) + "]] " + std::to_string(at + 1);
        if (table == nullptr) {
            fail(place + " is no table");
        }
        all.emplace_back(path_, place, *table);
    }
    return all;
}

} // namespace desk
