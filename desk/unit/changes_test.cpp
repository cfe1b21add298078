// Tests what pages are told of a request that they have already.
#include <doctest/doctest.h>

#include "changes.h"

#include <nlohmann/json.hpp>

using desk::change_of;
using nlohmann::json;

namespace {

json view(const char *state, json quotes, json history) {
    return {{"id", "R1"},
            {"state", state},
            {"quotes", std::move(quotes)},
            {"history", std::move(history)}};
}

} // namespace

TEST_CASE("of a request that did not change nothing is told but its name") {
    const json one = view("open", {1, 2}, {"a"});
    CHECK(change_of(one, one) ==
          json{{"id", "R1"}, {"set", json::object()}, {"lists", json::object()}});
}

TEST_CASE("a list is told by what is new or other in it, and by its length") {
    const json change =
        change_of(view("open", {1, 2, 3}, {"a", "b"}), view("done", {1, 9, 3, 4}, {"a"}));
    CHECK(change["set"] == json{{"state", "done"}});
    CHECK(change["lists"]["quotes"] == json::parse(R"({"size": 4, "items": [[1, 9], [3, 4]]})"));
    CHECK(change["lists"]["history"] == json::parse(R"({"size": 1, "items": []})"));
}

TEST_CASE("what a view has for the first time is told as it is") {
    json after = view("done", {1}, {"a"});
    after["award"] = {{"dealer", "DLR1"}};
    const json change = change_of(view("done", {1}, {"a"}), after);
    CHECK(change["set"] == json{{"award", {{"dealer", "DLR1"}}}});
}
