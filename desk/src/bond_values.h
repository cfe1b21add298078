// Works out by QuantLib, from a bond's static data, what its price means in yield and in money. It
// is a help and no rule: the venue trades prices, and the firms settle what they agree on.
#ifndef DESK_BOND_VALUES_H
#define DESK_BOND_VALUES_H

#include "bond_terms.h"
#include "price.h"
#include "terms.h"

#include <map>
#include <memory>
#include <mutex>
#include <optional>
#include <string>
#include <utility>

namespace desk {

// Of one price of a bond, for a settlement.
struct BondValue {
    Price price;
    double yield = 0;   // percent a year
    double accrued = 0; // of 100 nominal; below 0 where the bond is ex dividend
    Date settles;
};

// In hundredths of the currency; the buyer pays the total.
struct Amounts {
    std::int64_t principal = 0;
    std::int64_t accrued = 0;
    std::int64_t total = 0;
};

// Quantity is of nominal; each part is rounded to the hundredth, halves away from zero.
Amounts amounts_of(Quantity quantity, const BondValue &value);

// The regular settlement of a trade, and what has accrued by then.
struct Settlement {
    Date date;
    double accrued = 0; // of 100 nominal
};

// One bond, in QuantLib's terms. No two threads may use QuantLib at once.
class QuantBond {
  public:
    explicit QuantBond(const BondTerms &terms);
    ~QuantBond();

    // Nothing where the bond is not paid by the settlement's date, or has not begun.
    std::optional<Settlement> settlement(const Date &traded) const;
    // In percent; nothing where no yield gives the price.
    std::optional<double> yield_of(double price, const Settlement &settlement) const;
    std::optional<double> price_of(double yield, const Settlement &settlement) const;

  private:
    struct Parts;
    std::unique_ptr<Parts> parts_;
};

// The values of all bonds that have static data. Any thread may ask.
class BondValues {
  public:
    // Throws std::runtime_error with the bond that QuantLib takes no terms of.
    explicit BondValues(BondTable table);
    ~BondValues();

    // Null where the bond has no data.
    const BondTerms *terms(const std::string &bond) const;
    std::optional<Settlement> settlement(const std::string &bond, const Date &traded) const;
    // Nothing where the bond has no data, or the price no yield.
    std::optional<BondValue> of_price(const std::string &bond, Price price,
                                      const Date &traded) const;
    // The nearest price on a grid of so many steps a point, and that price's own yield.
    std::optional<BondValue> of_yield(const std::string &bond, double yield, int grid,
                                      const Date &traded) const;

  private:
    std::optional<BondValue> value(const QuantBond &bond, Price price, const Date &traded) const;
    const QuantBond *bond(const std::string &id) const;

    const BondTable table_;
    std::map<std::string, QuantBond> bonds_;
    mutable std::mutex mutex_; // QuantLib has global state
    // What was asked for already, of one day of trades.
    mutable Date known_day_;
    mutable std::map<std::pair<std::string, int>, std::optional<BondValue>> known_;
};

} // namespace desk

#endif
