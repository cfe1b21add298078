#include "fields.h"

#include <algorithm>

#include <nlohmann/json.hpp>

namespace desk {

using nlohmann::json;

namespace {

constexpr std::size_t most_dealers = 64;
constexpr std::int64_t most_number = 1'000'000'000'000'000;
constexpr std::int64_t most_price = 1'000'000; // 256ths: beyond any that the venue takes

} // namespace

void fail_field(const json &text, const char *why) {
    throw json::other_error::create(600, why, &text);
}

std::string name_in(const json &text, const char *key, std::size_t most) {
    std::string name = text.at(key).get<std::string>();
    if (name.size() > most) {
        fail_field(text, "too long");
    }
    return name;
}

std::int64_t number_in(const json &text, const char *key) {
    const json &value = text.at(key);
    const bool is_whole = value.is_number_unsigned() &&
                          value.get<std::uint64_t>() <= static_cast<std::uint64_t>(most_number);
    if (!is_whole) {
        fail_field(text, "no number");
    }
    return value.get<std::int64_t>();
}

Price price_in(const json &text) {
    return Price{static_cast<int>(std::min(number_in(text, "price"), most_price))};
}

double decimal_in(const json &text, const char *key, double least, double greatest) {
    const json &value = text.at(key);
    if (!value.is_number() || !(value.get<double>() >= least && value.get<double>() <= greatest)) {
        fail_field(text, "no number of this range");
    }
    return value.get<double>();
}

std::vector<std::string> dealers_in(const json &text) {
    auto dealers = text.at("dealers").get<std::vector<std::string>>();
    if (dealers.size() > most_dealers) {
        fail_field(text, "too many");
    }
    return dealers;
}

} // namespace desk
