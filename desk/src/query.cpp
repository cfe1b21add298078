#include "query.h"

#include "fields.h"

#include <nlohmann/json.hpp>

namespace desk {

using nlohmann::json;

namespace {

constexpr std::size_t most_find_bytes = 256;
constexpr double least_yield = -20, greatest_yield = 200; // percent

query::Value value_in(const json &text) {
    query::Value value{name_in(text, "bond"), number_in(text, "quantity"), {}, {}};
    if (text.contains("price") == text.contains("yield")) {
        fail_field(text, "not one of price and yield");
    }
    if (text.contains("price")) {
        value.price = price_in(text);
    } else {
        value.yield = decimal_in(text, "yield", least_yield, greatest_yield);
    }
    return value;
}

std::string find_in(const json &text) {
    return text.contains("find") ? name_in(text, "find", most_find_bytes) : std::string();
}

std::optional<Query> query_in(const json &text) {
    const std::string what = name_in(text, "do");
    if (what == "price") {
        return value_in(text);
    }
    if (what == "day") {
        return query::OneDay{name_in(text, "date"), find_in(text)};
    }
    if (what == "find") {
        return query::Find{find_in(text)};
    }
    return {};
}

} // namespace

std::optional<Query> read_query(const json &text) {
    try {
        return query_in(text);
    } catch (const json::exception &) {
        return {};
    }
}

} // namespace desk
