// Reads what a page asks to be told. Nothing is sent for it.
#ifndef DESK_QUERY_H
#define DESK_QUERY_H

#include "terms.h"

#include <optional>
#include <string>
#include <variant>

#include <nlohmann/json_fwd.hpp>

namespace desk {

namespace query {

// What a price of a bond means, or what price a yield is: one of both is given.
struct Value {
    std::string bond;
    Quantity quantity = 0;
    std::optional<Price> price;
    std::optional<double> yield; // percent a year
};

// The requests of an earlier day in which all words are found.
struct OneDay {
    std::string date; // YYYYMMDD
    std::string find;
};

// Those of all earlier days, the newest first.
struct Find {
    std::string find;
};

} // namespace query

using Query = std::variant<query::Value, query::OneDay, query::Find>;

// Nothing where it is none.
std::optional<Query> read_query(const nlohmann::json &text);

} // namespace desk

#endif
