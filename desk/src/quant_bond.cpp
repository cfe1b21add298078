// The only file that includes QuantLib, whose headers take a compiler long.
#include "bond_values.h"

#include <exception>
#include <vector>

#include <ql/cashflows/cashflows.hpp>
#include <ql/cashflows/coupon.hpp>
#include <ql/instruments/bonds/fixedratebond.hpp>
#include <ql/pricingengines/bond/bondfunctions.hpp>
#include <ql/time/calendars/nullcalendar.hpp>
#include <ql/time/calendars/target.hpp>
#include <ql/time/calendars/unitedkingdom.hpp>
#include <ql/time/calendars/unitedstates.hpp>
#include <ql/time/calendars/weekendsonly.hpp>
#include <ql/time/daycounters/actual360.hpp>
#include <ql/time/daycounters/actual365fixed.hpp>
#include <ql/time/daycounters/actualactual.hpp>
#include <ql/time/daycounters/thirty360.hpp>
#include <ql/time/schedule.hpp>

namespace desk {

namespace ql = QuantLib;

namespace {

constexpr double accuracy = 1e-12; // of a yield
constexpr ql::Size most_steps = 200;

ql::Date date_of(const Date &date) {
    return {static_cast<ql::Day>(unsigned(date.day())),
            static_cast<ql::Month>(unsigned(date.month())),
            static_cast<ql::Year>(int(date.year()))};
}

Date date_of(const ql::Date &date) {
    return Date(std::chrono::year(date.year()), std::chrono::month(unsigned(date.month())),
                std::chrono::day(static_cast<unsigned>(date.dayOfMonth())));
}

ql::Calendar calendar_of(BusinessDays days) {
    switch (days) {
    case BusinessDays::target:
        return ql::TARGET();
    case BusinessDays::us_government_bonds:
        return ql::UnitedStates(ql::UnitedStates::GovernmentBond);
    case BusinessDays::us_settlement:
        return ql::UnitedStates(ql::UnitedStates::Settlement);
    case BusinessDays::united_kingdom:
        return ql::UnitedKingdom(ql::UnitedKingdom::Settlement);
    case BusinessDays::weekdays:
        return ql::WeekendsOnly();
    }
    return ql::WeekendsOnly();
}

// Coupons are due on their own days, whether these are business days or not: so yields are quoted.
ql::Schedule schedule_of(const BondTerms &terms) {
    const ql::Date first = terms.first_coupon && *terms.first_coupon != terms.maturity
                               ? date_of(*terms.first_coupon)
                               : ql::Date();
    return {date_of(terms.dated),
            date_of(terms.maturity),
            ql::Period(12 / terms.frequency, ql::Months),
            ql::NullCalendar(),
            ql::Unadjusted,
            ql::Unadjusted,
            ql::DateGeneration::Backward,
            terms.end_of_month,
            first};
}

// With the schedule QuantLib finds the month's end in a first period that is longer than a whole
// one; without it the last day of February in the last period.
ql::DayCounter counter_of(const BondTerms &terms, const ql::Schedule &schedule) {
    switch (terms.day_count) {
    case DayCount::actual_actual_icma:
        return terms.end_of_month && terms.first_coupon
                   ? ql::ActualActual(ql::ActualActual::ISMA, schedule)
                   : ql::ActualActual(ql::ActualActual::ISMA);
    case DayCount::thirty_360:
        return ql::Thirty360(ql::Thirty360::USA);
    case DayCount::thirty_e_360:
        return ql::Thirty360(ql::Thirty360::European);
    case DayCount::actual_365:
        return ql::Actual365Fixed();
    case DayCount::actual_360:
        return ql::Actual360();
    }
    return ql::Actual365Fixed();
}

// Each whole period of coupons is the same part of a year, whatever its days, and of a broken one
// its days' part of that: so is time counted where a price is worked out.
class Periods final : public ql::DayCounter {
  public:
    Periods(const ql::DayCounter &days, int frequency)
        : DayCounter(ql::ext::shared_ptr<DayCounter::Impl>(new Impl(days, frequency))) {}

  private:
    class Impl final : public DayCounter::Impl {
      public:
        Impl(ql::DayCounter days, int frequency) : days_(std::move(days)), frequency_(frequency) {}
        std::string name() const override { return "periods of " + days_.name(); }
        ql::Time yearFraction(const ql::Date &from, const ql::Date &to, const ql::Date &first,
                              const ql::Date &last) const override {
            return from == to ? 0
                              : days_.yearFraction(from, to, first, last) /
                                    days_.yearFraction(first, last, first, last) / frequency_;
        }

      private:
        const ql::DayCounter days_;
        const int frequency_;
    };
};

// QuantLib's is the first day on which a bond trades without its coupon.
ql::Period ex_period_of(const BondTerms &terms) {
    return terms.ex_dividend_days == 0 ? ql::Period()
                                       : ql::Period(terms.ex_dividend_days - 1, ql::Days);
}

ql::FixedRateBond bond_of(const BondTerms &terms, const ql::Schedule &schedule,
                          const std::vector<ql::Rate> &coupons) {
    const ql::Calendar calendar = calendar_of(terms.business_days);
    return {static_cast<ql::Natural>(terms.settlement_days),
            100.0,
            schedule,
            coupons,
            counter_of(terms, schedule),
            ql::Unadjusted,
            100.0,
            date_of(terms.dated),
            calendar,
            ex_period_of(terms),
            calendar};
}

// Rates by which each whole period pays its part of the coupon, whatever its days; by actual/360 a
// period pays its days.
std::vector<ql::Rate> paid_rates(const BondTerms &terms, const ql::FixedRateBond &bond,
                                 const ql::Schedule &schedule) {
    const ql::Rate coupon = terms.coupon / 100;
    std::vector<ql::Rate> rates(schedule.size() - 1, coupon);
    for (std::size_t at = 0; at < rates.size() && terms.day_count != DayCount::actual_360; ++at) {
        const auto one = ql::ext::dynamic_pointer_cast<ql::Coupon>(bond.cashflows()[at]);
        if (schedule.isRegular(at + 1)) {
            rates[at] = coupon / terms.frequency / one->accrualPeriod();
        }
    }
    return rates;
}

} // namespace

struct QuantBond::Parts {
    explicit Parts(const BondTerms &terms)
        : yield(terms.yield), calendar(calendar_of(terms.business_days)),
          settlement_days(terms.settlement_days), schedule(schedule_of(terms)),
          periods(counter_of(terms, schedule), terms.frequency),
          frequency(terms.yield == YieldConvention::yearly
                        ? ql::Annual
                        : static_cast<ql::Frequency>(terms.frequency)),
          accruing(bond_of(terms, schedule, {terms.coupon / 100})),
          paying(bond_of(terms, schedule, paid_rates(terms, accruing, schedule))) {}

    // In the last period the street takes simple interest.
    ql::Compounding compounding(const ql::Date &settles) const {
        const auto next = ql::CashFlows::nextCashFlowDate(paying.cashflows(), false, settles);
        const bool is_last = next == paying.maturityDate();
        return yield == YieldConvention::us_street && is_last ? ql::Simple : ql::Compounded;
    }

    const YieldConvention yield;
    const ql::Calendar calendar;
    const int settlement_days;
    const ql::Schedule schedule;
    const Periods periods;
    const ql::Frequency frequency;
    const ql::FixedRateBond accruing;
    const ql::FixedRateBond paying;
};

QuantBond::QuantBond(const BondTerms &terms) : parts_(std::make_unique<Parts>(terms)) {}

QuantBond::~QuantBond() = default;

std::optional<Settlement> QuantBond::settlement(const Date &traded) const {
    try {
        const ql::Date day = parts_->calendar.advance(date_of(traded), parts_->settlement_days,
                                                      ql::Days, ql::Following);
        if (day < parts_->schedule.startDate() || day >= parts_->accruing.maturityDate()) {
            return {};
        }
        return Settlement{date_of(day), ql::BondFunctions::accruedAmount(parts_->accruing, day)};
    } catch (const std::exception &) {
        return {}; // a date beyond what QuantLib counts
    }
}

std::optional<double> QuantBond::yield_of(double price, const Settlement &settlement) const {
    const ql::Date day = date_of(settlement.date);
    try {
        return 100 * ql::CashFlows::yield(parts_->paying.cashflows(), price + settlement.accrued,
                                          parts_->periods, parts_->compounding(day),
                                          parts_->frequency, false, day, day, accuracy, most_steps);
    } catch (const std::exception &) {
        return {}; // no yield gives it
    }
}

std::optional<double> QuantBond::price_of(double yield, const Settlement &settlement) const {
    const ql::Date day = date_of(settlement.date);
    try {
        return ql::CashFlows::npv(parts_->paying.cashflows(), yield / 100, parts_->periods,
                                  parts_->compounding(day), parts_->frequency, false, day, day) -
               settlement.accrued;
    } catch (const std::exception &) {
        return {};
    }
}

} // namespace desk
