// What pages are told of a bond's data: a bond that pays 4 per cent a year, and whose last payment
// is 104 on 1 July 2000. On 1 July 1999 a price of 100 yields 4 per cent, and 99 yields 104/99 - 1.
// The day before 149 of 365 days have accrued.
#include <doctest/doctest.h>

#include "valued_views.h"

#include <nlohmann/json.hpp>

using namespace desk;
using namespace std::chrono_literals;
using nlohmann::json;

namespace {

constexpr Date coupon = 1999y / 7 / 1, before = 1999y / 6 / 30;

BondValues values() {
    BondTerms terms;
    terms.currency = "EUR";
    terms.coupon = 4;
    terms.dated = 1999y / 2 / 1;
    terms.first_coupon = coupon;
    terms.maturity = 2000y / 7 / 1;
    terms.business_days = BusinessDays::target;
    return BondValues({{"B", terms}});
}

json view(const char *bond, const char *state) {
    return {{"bond", bond},
            {"state", state},
            {"quantity", 2'000'000},
            {"quotes", {json{{"price", 100 * 256}}, json{{"price", 99 * 256}}}}};
}

// An investor's, with an award.
json awarded(const char *bond, const char *state) {
    json one = view(bond, state);
    one["award"] = {{"price", 99 * 256}};
    return one;
}

// A dealer's, with the price that stood at the end.
json ended(const char *state, const json &price) {
    json one = view("B", state);
    one["result"] = price;
    return one;
}

json valued(json one, const Date &traded) {
    add_values(one, values(), traded);
    return one;
}

} // namespace

TEST_CASE("a trade has its yield and its amounts, and each quote its yield") {
    const json done = valued(awarded("B", "done"), coupon);
    CHECK(done.at("settles") == "1999-07-01");
    CHECK(done.at("accrued") == 0);
    CHECK(done.at("quotes").at(0).at("yield").get<double>() == doctest::Approx(4).epsilon(1e-9));
    CHECK(done.at("quotes").at(1).at("yield") == 5.05050505); // in eight places
    CHECK(done.at("award").at("yield") == 5.05050505);
    CHECK(done.at("amounts") ==
          json{{"principal", 1'980'000}, {"accrued", 0}, {"total", 1'980'000}});
    CHECK_FALSE(done.contains("resultYield"));

    const json earlier = valued(awarded("B", "done"), before);
    CHECK(earlier.at("settles") == "1999-06-30");
    CHECK(earlier.at("accrued") == 1.63287671);
    CHECK(earlier.at("amounts") ==
          json{{"principal", 1'980'000}, {"accrued", 32'657.53}, {"total", 2'012'657.53}});

    const json open = valued(view("B", "open"), coupon);
    CHECK(open.at("amounts").is_null());
    CHECK(open.at("quotes").at(1).at("yield") == 5.05050505);
    CHECK_FALSE(open.contains("award"));
}

TEST_CASE("a dealer's request has the yield of its last price, and amounts where it won") {
    const json won = valued(ended("done", 99 * 256), coupon);
    CHECK(won.at("resultYield") == 5.05050505);
    CHECK(won.at("amounts").at("total") == 1'980'000);
    const json away = valued(ended("away", 99 * 256), coupon);
    CHECK(away.at("resultYield") == 5.05050505);
    CHECK(away.at("amounts").is_null());
    const json none = valued(ended("expired", nullptr), coupon);
    CHECK(none.at("resultYield").is_null());
    CHECK(none.at("amounts").is_null());
}

TEST_CASE("a bond without data, or one that is paid by then, has no values") {
    for (const json &one : {valued(awarded("other", "done"), coupon),
                            valued(awarded("B", "done"), Date(2000y / 7 / 3))}) {
        for (const char *key : {"settles", "accrued", "amounts"}) {
            CHECK(one.at(key).is_null());
        }
        CHECK(one.at("quotes").at(0).at("yield").is_null());
        CHECK(one.at("award").at("yield").is_null());
    }
}

TEST_CASE("a page is told of a bond what it may trade at, and whether the desk has its data") {
    const json priced =
        view_of(Bond{"B", "Birch", 32, {Price{90 * 256}, Price{110 * 256}}}, values(), coupon);
    CHECK(priced == json{{"id", "B"},
                         {"name", "Birch"},
                         {"grid", 32},
                         {"low", 90 * 256},
                         {"high", 110 * 256},
                         {"priced", true},
                         {"currency", "EUR"},
                         {"coupon", 4},
                         {"maturity", "2000-07-01"},
                         {"settles", "1999-07-01"}});
    CHECK(view_of(Bond{"A", "Alder", 256, {}}, values(), coupon) ==
          json{{"id", "A"}, {"name", "Alder"}, {"grid", 256}, {"priced", false}});
    CHECK(view_of(Bond{"B", "Birch", 32, {}}, values(), Date(2000y / 7 / 3)).at("priced") == false);
}

TEST_CASE("the answer to a price has what the buyer pays for the quantity that was asked about") {
    const BondValues all = values();
    const auto value = all.of_price("B", Price{99 * 256}, before);
    REQUIRE(value);
    json answer = view_of(*value, *all.terms("B"), 1'000'000);
    CHECK(answer.at("yield").get<double>() > 5);
    answer.erase("yield");
    CHECK(
        answer ==
        json{{"price", 99 * 256},
             {"accrued", 1.63287671},
             {"settles", "1999-06-30"},
             {"amounts", {{"principal", 990'000}, {"accrued", 16'328.77}, {"total", 1'006'328.77}}},
             {"currency", "EUR"}});
}
