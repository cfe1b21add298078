// Reads the fields of a page's message, each with its limit.
#ifndef DESK_FIELDS_H
#define DESK_FIELDS_H

#include "price.h"

#include <cstdint>
#include <string>
#include <vector>

#include <nlohmann/json_fwd.hpp>

namespace desk {

constexpr std::size_t most_name_bytes = 64;

// Each throws nlohmann::json::exception where the field is missing, or is none of this kind.
std::string name_in(const nlohmann::json &text, const char *key,
                    std::size_t most = most_name_bytes);
std::int64_t number_in(const nlohmann::json &text, const char *key);
Price price_in(const nlohmann::json &text);
double decimal_in(const nlohmann::json &text, const char *key, double least, double greatest);
std::vector<std::string> dealers_in(const nlohmann::json &text);

// What the functions above throw.
[[noreturn]] void fail_field(const nlohmann::json &text, const char *why);

} // namespace desk

#endif
