#include "changes.h"

#include <cstddef>
#include <string>

#include <nlohmann/json.hpp>

namespace desk {

using nlohmann::json;

namespace {

// Those that get longer all day.
bool is_long(const std::string &key) {
    return key == "history" || key == "quotes";
}

json list_change(const json &before, const json &after) {
    json items = json::array();
    for (std::size_t at = 0; at < after.size(); ++at) {
        if (at >= before.size() || before[at] != after[at]) {
            items.push_back(json::array({at, after[at]}));
        }
    }
    return {{"size", after.size()}, {"items", std::move(items)}};
}

} // namespace

json change_of(const json &before, const json &after) {
    json set = json::object();
    json lists = json::object();
    for (const auto &[key, value] : after.items()) {
        const auto old = before.find(key);
        if (old == before.end() || !is_long(key)) {
            if (old == before.end() || *old != value) {
                set[key] = value;
            }
        } else if (*old != value) {
            lists[key] = list_change(*old, value);
        }
    }
    return {{"id", after.at("id")}, {"set", std::move(set)}, {"lists", std::move(lists)}};
}

} // namespace desk
