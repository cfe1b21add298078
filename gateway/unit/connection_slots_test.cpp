// Connections to a page: those that wait for their peer make room for a newcomer.
#define DOCTEST_CONFIG_IMPLEMENT_WITH_MAIN
#include <doctest/doctest.h>

#include "common/web/connection_slots.h"

#include <memory>
#include <optional>
#include <vector>

using Slots = web::ConnectionSlots;

TEST_CASE("all places are taken by those that work") {
    const auto slots = std::make_shared<Slots>(2, 2);
    auto first = slots->take("a");
    auto second = slots->take("b");
    CHECK_FALSE(slots->take("c"));
    second.reset();
    CHECK(slots->take("c"));
}

TEST_CASE("the one that has waited longest gives up") {
    const auto slots = std::make_shared<Slots>(3, 3);
    std::vector<int> gave_up;
    auto first = slots->take("a");
    auto second = slots->take("a");
    auto third = slots->take("a");
    second->wait([&] { gave_up.push_back(2); });
    first->wait([&] { gave_up.push_back(1); });
    auto fourth = slots->take("b");
    CHECK(fourth);
    CHECK(gave_up == std::vector{2});
    auto fifth = slots->take("b");
    CHECK(fifth);
    CHECK(gave_up == std::vector{2, 1});
    CHECK_FALSE(slots->take("b"));
}

TEST_CASE("one that works again does not") {
    const auto slots = std::make_shared<Slots>(1, 1);
    auto first = slots->take("a");
    first->wait([] { FAIL("it gives up"); });
    first->work();
    CHECK_FALSE(slots->take("b"));
}

TEST_CASE("an address has its own limit, and makes room for itself alone") {
    const auto slots = std::make_shared<Slots>(9, 2);
    int gave_up = 0;
    auto other = slots->take("b");
    other->wait([] { FAIL("another address gives up"); });
    auto first = slots->take("a");
    auto second = slots->take("a");
    CHECK_FALSE(slots->take("a"));
    second->wait([&] { ++gave_up; });
    CHECK(slots->take("a"));
    CHECK(gave_up == 1);
}

TEST_CASE("who gave up has no place to give back") {
    const auto slots = std::make_shared<Slots>(1, 1);
    auto first = slots->take("a");
    first->wait([] {});
    auto second = slots->take("b");
    first->wait([] { FAIL("it gives up twice"); });
    first.reset();
    CHECK_FALSE(slots->take("c"));
}
