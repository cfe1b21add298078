// A table of what the venue's configuration may have: the keys of FORMATS.md, and those that
// describe the venue or a bond to people and that the venue's program ignores.
#ifndef GATEWAY_CONFIG_VENUE_RULES_H
#define GATEWAY_CONFIG_VENUE_RULES_H

#include <cstdint>
#include <span>
#include <string_view>

namespace gateway {

enum class ValueKind { number, text, texts };

// A key of a row. A number is lawful from least to most. A value, or each of several, as it is
// written has the form, where there is one.
struct KeyRule {
    std::string_view key;
    ValueKind kind;
    bool needed;
    std::int64_t least;
    std::int64_t most;
    bool (*form)(std::string_view text);
    std::string_view allowed; // in words, behind "has to be"
    std::int64_t since = 1;   // the first version of the configuration that looks at it
};

// The rows of one table: its key, and what one row is called.
struct RowRule {
    std::string_view table;
    std::string_view name_key; // by which a reader finds the row
    std::int64_t most_rows;
    std::string_view sum_key; // whose sum over all rows is limited, or empty
    std::int64_t most_sum;
    std::span<const KeyRule> keys;
};

constexpr std::int64_t newest_version = 3; // of the configuration

// Above the tables: version, date and mic.
std::span<const KeyRule> top_rules();
// Bonds, dealers and investors, in this order.
std::span<const RowRule> row_rules();

bool is_date(std::string_view text);

} // namespace gateway

#endif
