// The static data of a bond, from the operator's file bonds.toml: it says what a price means in
// yield and in money.
#ifndef DESK_BOND_TERMS_H
#define DESK_BOND_TERMS_H

#include <chrono>
#include <map>
#include <optional>
#include <string>

namespace desk {

// A day of the calendar.
using Date = std::chrono::year_month_day;

// Which part of a year an accrual is.
enum class DayCount { actual_actual_icma, thirty_360, thirty_e_360, actual_365, actual_360 };

// Which days are business days.
enum class BusinessDays { target, us_government_bonds, us_settlement, united_kingdom, weekdays };

// How a yield discounts what a bond pays.
enum class YieldConvention {
    at_coupon_frequency, // compounded as often as the bond pays
    yearly,              // compounded once a year, however often it pays
    us_street            // at the coupon's frequency; simple interest in the last period
};

struct BondTerms {
    std::string currency;
    double coupon = 0; // percent a year
    int frequency = 1; // coupons a year
    Date dated;        // from when interest accrues
    std::optional<Date> first_coupon;
    Date maturity;
    bool end_of_month = false; // coupons are due at the end of a month, where maturity is at one
    DayCount day_count = DayCount::actual_actual_icma;
    BusinessDays business_days = BusinessDays::weekdays;
    int ex_dividend_days = 0; // business days before a coupon; who settles later does not get it
    int settlement_days = 0;  // business days from a trade
    YieldConvention yield = YieldConvention::at_coupon_frequency;
};

using BondTable = std::map<std::string, BondTerms>; // by SecurityID (48)

} // namespace desk

#endif
