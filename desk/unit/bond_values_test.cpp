// What prices of bonds mean, by figures of others: of QuantLib's test suite as Debian has its
// source (quantlib 1.29-1), by file and line, and of its day counters' published cases.
#include <doctest/doctest.h>

#include "bond_values.h"

#include <chrono>
#include <cmath>

using namespace desk;
using namespace std::chrono_literals;

namespace {

constexpr Price points(double points) {
    return Price{static_cast<int>(points * 256)};
}

// test-suite/bonds.cpp:419 (testCached, bond 1): a note of the US Treasury.
BondTerms treasury() {
    BondTerms terms;
    terms.currency = "USD";
    terms.coupon = 2.5;
    terms.frequency = 2;
    terms.dated = 2004y / 10 / 31;
    terms.maturity = 2006y / 10 / 31;
    terms.end_of_month = true;
    terms.settlement_days = 1;
    terms.yield = YieldConvention::us_street;
    return terms;
}

// test-suite/bonds.cpp:1106 (testExCouponGilt): GB0009997999, 8 per cent 2021.
BondTerms gilt() {
    BondTerms terms;
    terms.currency = "GBP";
    terms.coupon = 8;
    terms.frequency = 2;
    terms.dated = 1996y / 2 / 29;
    terms.first_coupon = 1996y / 6 / 7;
    terms.maturity = 2021y / 6 / 7;
    terms.business_days = BusinessDays::united_kingdom;
    terms.ex_dividend_days = 7;
    terms.settlement_days = 0;
    return terms;
}

// test-suite/bonds.cpp:1677 (testThirty360BondWithSettlementOn31st): cusip 3130A0X70.
BondTerms thirty_360() {
    BondTerms terms;
    terms.currency = "USD";
    terms.coupon = 1.5;
    terms.frequency = 2;
    terms.dated = 2014y / 2 / 13;
    terms.maturity = 2018y / 8 / 13;
    terms.day_count = DayCount::thirty_360;
    terms.business_days = BusinessDays::us_government_bonds;
    terms.settlement_days = 1;
    return terms;
}

// A bond of Bunds' and OATs' rules (annual, actual/actual ICMA) with the dates of
// test-suite/daycounters.cpp:144 to 162: a short first period, then a whole one.
BondTerms annual(int coupon) {
    BondTerms terms;
    terms.currency = "EUR";
    terms.coupon = coupon;
    terms.frequency = 1;
    terms.dated = 1999y / 2 / 1;
    terms.first_coupon = 1999y / 7 / 1;
    terms.maturity = 2000y / 7 / 1;
    terms.business_days = BusinessDays::target;
    return terms;
}

double accrued(const BondTerms &terms, Date traded) {
    return QuantBond(terms).settlement(traded).value().accrued;
}

} // namespace

TEST_CASE("a Treasury's yield is the one that QuantLib's suite has of the market") {
    const BondValues values({{"T", treasury()}});
    const auto value = values.of_price("T", points(99.203125), 2004y / 11 / 22);
    REQUIRE(value);
    CHECK(value->settles == Date(2004y / 11 / 23));
    CHECK(std::abs(value->yield - 2.9257) < 5e-5);
}

TEST_CASE("a Gilt is ex dividend after the seventh business day before its coupon") {
    struct Row {
        Date settles;
        double accrued, yield;
    };
    const BondValues values({{"G", gilt()}});
    for (const Row &row :
         {Row{2013y / 5 / 29, 3.8021978, 7.495180593}, Row{2013y / 5 / 30, -0.1758242, 7.496183543},
          Row{2013y / 5 / 31, -0.1538462, 7.495987492}}) {
        const auto value = values.of_price("G", points(103), row.settles);
        REQUIRE(value);
        CHECK(value->settles == row.settles);
        CHECK(std::abs(value->accrued - row.accrued) < 1e-6);
        CHECK(std::abs(value->yield - row.yield) < 1e-4);
    }
}

TEST_CASE("a bond of 30/360 has accrued 210 days from the 13th of February to the 31st of July") {
    const BondValues values({{"C", thirty_360()}});
    const auto value = values.of_price("C", points(100), 2017y / 7 / 28);
    REQUIRE(value);
    CHECK(value->settles == Date(2017y / 7 / 31));
    CHECK(value->accrued == doctest::Approx(0.7));
    CHECK(std::abs(value->yield - 1.5) < 0.01);
}

// The part of a year of each period is the published one: 150 days of 365, and a whole year.
TEST_CASE("Bunds and OATs accrue by actual/actual ICMA") {
    for (const int coupon : {4, 6}) {
        const double last_day_of_first = accrued(annual(coupon), 1999y / 6 / 30);
        CHECK(last_day_of_first == doctest::Approx(coupon * (0.410958904110 - 1 / 365.0)));
        CHECK(accrued(annual(coupon), 1999y / 7 / 1) == doctest::Approx(0));
        CHECK(accrued(annual(coupon), 2000y / 6 / 30) == doctest::Approx(coupon * 365 / 366.0));
    }
}

// What spreadsheets have of 5.75 per cent from 15 February 1999 to 15 November 2007:
// libreoffice 7.4.7, sc/qa/unit/data/functions/financial/fods, price.fods:1898 and 1778,
// yield.fods:2592; gnumeric 1.12.55, samples/excel/finfuns.xls, Sheet1, F57 and D71.
TEST_CASE("prices and yields are those of spreadsheets, paid once, twice and four times a year") {
    BondTerms terms;
    terms.currency = "EUR";
    terms.coupon = 5.75;
    terms.dated = 1997y / 11 / 15;
    terms.maturity = 2007y / 11 / 15;
    terms.settlement_days = 0;
    struct Row {
        int frequency;
        DayCount day_count;
        double price, yield;
    };
    const DayCount icma = DayCount::actual_actual_icma;
    for (const Row &row :
         {Row{1, DayCount::thirty_360, 95.0780346202577, 6.5}, Row{2, icma, 95.0446242216248, 6.5},
          Row{2, icma, 95.04287, 6.50027446105988}, Row{4, icma, 95.02493064759949, 6.5},
          Row{4, icma, 95.0423, 6.497300317305064}}) {
        terms.frequency = row.frequency;
        terms.day_count = row.day_count;
        const QuantBond bond(terms);
        const auto settlement = bond.settlement(1999y / 2 / 15);
        REQUIRE(settlement);
        CHECK(std::abs(bond.yield_of(row.price, *settlement).value() - row.yield) < 1e-7);
        CHECK(std::abs(bond.price_of(row.yield, *settlement).value() - row.price) < 1e-7);
    }
}

// The bond market of the US closes on Good Friday, the banks there do not; 1 May is a day off of
// TARGET alone, the last Monday of August one of the United Kingdom, and weekdays have none.
TEST_CASE("each calendar has holidays of its own") {
    struct Row {
        BusinessDays days;
        Date good_friday, may, august,
            christmas; // a day behind 28 March, 30 April, 23 August, 24 December
    };
    const Date april = 2024y / 4 / 1, easter_tuesday = 2024y / 4 / 2;
    for (const Row &row :
         {Row{BusinessDays::target, easter_tuesday, 2024y / 5 / 2, 2024y / 8 / 26, 2024y / 12 / 27},
          Row{BusinessDays::us_government_bonds, april, 2024y / 5 / 1, 2024y / 8 / 26,
              2024y / 12 / 26},
          Row{BusinessDays::us_settlement, 2024y / 3 / 29, 2024y / 5 / 1, 2024y / 8 / 26,
              2024y / 12 / 26},
          Row{BusinessDays::united_kingdom, easter_tuesday, 2024y / 5 / 1, 2024y / 8 / 27,
              2024y / 12 / 27},
          Row{BusinessDays::weekdays, 2024y / 3 / 29, 2024y / 5 / 1, 2024y / 8 / 26,
              2024y / 12 / 25}}) {
        CAPTURE(static_cast<int>(row.days));
        BondTerms terms = thirty_360();
        terms.dated = 2020y / 2 / 13;
        terms.maturity = 2030y / 2 / 13;
        terms.business_days = row.days;
        const QuantBond bond(terms);
        const auto settles = [&](Date traded) { return bond.settlement(traded).value().date; };
        CHECK(settles(2024y / 3 / 28) == row.good_friday);
        CHECK(settles(2024y / 4 / 30) == row.may);
        CHECK(settles(2024y / 8 / 23) == row.august);
        CHECK(settles(2024y / 12 / 24) == row.christmas);
    }
}

// Twelve coupons of 1 per cent compound to 1.01^12 - 1 a year; the price of a bond on its coupon's
// day is 100 at its coupon.
TEST_CASE("a bond that pays each month, by the yield of a month and of a year") {
    BondTerms terms = thirty_360();
    terms.coupon = 12;
    terms.frequency = 12;
    terms.dated = 2024y / 1 / 15;
    terms.maturity = 2026y / 1 / 15;
    terms.business_days = BusinessDays::weekdays;
    terms.settlement_days = 0;
    const auto yield = [&](YieldConvention convention) {
        terms.yield = convention;
        const QuantBond bond(terms);
        return bond.yield_of(100, bond.settlement(2024y / 4 / 15).value()).value();
    };
    CHECK(yield(YieldConvention::at_coupon_frequency) == doctest::Approx(12));
    CHECK(yield(YieldConvention::yearly) == doctest::Approx(12.682503));
}

// The yield that discounts one payment of 104 in a year to 100 is 4 per cent.
TEST_CASE("at par, on a coupon's day, an annual bond yields its coupon") {
    const BondValues values({{"B", annual(4)}});
    const auto value = values.of_price("B", points(100), 1999y / 7 / 1);
    REQUIRE(value);
    CHECK(value->yield == doctest::Approx(4));
}

TEST_CASE("a yield becomes the nearest price of the grid, and has that price's own yield") {
    const BondValues values({{"T", treasury()}});
    for (const int grid : {32, 64, 128, 256}) {
        const auto value = values.of_yield("T", 2.9257, grid, 2004y / 11 / 22);
        REQUIRE(value);
        CHECK(value->price.is_on_grid(grid));
        CHECK(std::abs(value->price.in_256ths / 256.0 - 99.203125) <= 0.5 / grid + 1e-4);
        CHECK(values.of_price("T", value->price, 2004y / 11 / 22)->yield == value->yield);
    }
    CHECK_FALSE(values.of_yield("T", -19.9, 256, 2200y / 1 / 1));
}

// Nineteen coupons and the redemption, none of them discounted.
TEST_CASE("a yield has a price up to the greatest that there is, 999 and 255 256ths") {
    const auto value = [](double price) {
        BondTerms terms = annual(0);
        terms.coupon = (price - 100) / 19;
        terms.dated = 1999y / 7 / 1;
        terms.first_coupon.reset();
        terms.maturity = 2018y / 7 / 1;
        return BondValues({{"B", terms}}).of_yield("B", 0, 256, 1999y / 7 / 1);
    };
    for (const double price : {996.5, 998.75, 999.5, 999.99609375}) {
        CAPTURE(price);
        REQUIRE(value(price));
        CHECK(value(price)->price == points(price));
    }
    CHECK_FALSE(value(1000));
    CHECK_FALSE(value(1001));
}

TEST_CASE("a bond without data, one that has ended, and a price without a yield have no value") {
    const BondValues values({{"T", treasury()}});
    CHECK_FALSE(values.of_price("X", points(100), 2004y / 11 / 22));
    CHECK_FALSE(values.of_price("T", points(100), 2006y / 10 / 30));
    CHECK_FALSE(values.of_price("T", Price{0}, 2004y / 11 / 22));
    CHECK_FALSE(values.settlement("T", 2003y / 1 / 1));
}

TEST_CASE("amounts are hundredths, halves away from zero") {
    const BondValue value{points(99.515625), 4, -0.125, 2026y / 1 / 2};
    const Amounts amounts = amounts_of(2'000'000, value);
    CHECK(amounts.principal == 199'031'250);
    CHECK(amounts.accrued == -250'000);
    CHECK(amounts.total == 198'781'250);
    CHECK(amounts_of(1, BondValue{Price{128}, 0, 0, {}}).principal == 1); // 0.5 of a hundredth
    CHECK(amounts_of(1'000'000'000'000, BondValue{Price{255'999}, 0, 0, {}}).principal ==
          999'996'093'750'000);
}
