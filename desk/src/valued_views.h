// Adds what follows from bonds' static data to the views of requests that pages have.
#ifndef DESK_VALUED_VIEWS_H
#define DESK_VALUED_VIEWS_H

#include "bond_values.h"
#include "market.h"

#include <nlohmann/json_fwd.hpp>

namespace desk {

// Adds to a view of a request: `settles` and `accrued` (of 100), the `yield` of each quote and of
// the award (`resultYield` of a dealer's), and a trade's `amounts`; null where the bond has no
// data. Trades are of this date.
void add_values(nlohmann::json &view, const BondValues &values, const Date &traded);

// What a page is told of a bond: `priced`, and with it currency, coupon, maturity and settlement.
nlohmann::json view_of(const Bond &bond, const BondValues &values, const Date &traded);

// The answer to a page that asks what a price or a yield means; `amounts` are of this quantity.
nlohmann::json view_of(const BondValue &value, const BondTerms &terms, Quantity quantity);

} // namespace desk

#endif
