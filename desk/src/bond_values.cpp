#include "bond_values.h"

#include <cmath>
#include <exception>
#include <stdexcept>

namespace desk {

namespace {

constexpr std::size_t most_known = 65'536; // values of a day

} // namespace

Amounts amounts_of(Quantity quantity, const BondValue &value) {
    Amounts amounts;
    amounts.principal = (quantity * value.price.in_256ths + 128) / 256;
    amounts.accrued = std::llround(static_cast<long double>(quantity) * value.accrued);
    amounts.total = amounts.principal + amounts.accrued;
    return amounts;
}

BondValues::BondValues(BondTable table) : table_(std::move(table)) {
    for (const auto &[id, terms] : table_) {
        try {
            bonds_.try_emplace(id, terms);
        } catch (const std::exception &fault) {
            throw std::runtime_error("the static data of bond '" + id + "': " + fault.what());
        }
    }
}

BondValues::~BondValues() = default;

const BondTerms *BondValues::terms(const std::string &bond) const {
    const auto found = table_.find(bond);
    return found == table_.end() ? nullptr : &found->second;
}

const QuantBond *BondValues::bond(const std::string &id) const {
    const auto found = bonds_.find(id);
    return found == bonds_.end() ? nullptr : &found->second;
}

std::optional<Settlement> BondValues::settlement(const std::string &id, const Date &traded) const {
    const QuantBond *one = bond(id);
    const std::lock_guard lock(mutex_);
    return one == nullptr ? std::nullopt : one->settlement(traded);
}

std::optional<BondValue> BondValues::value(const QuantBond &bond, Price price,
                                           const Date &traded) const {
    const std::optional<Settlement> settlement = bond.settlement(traded);
    if (!settlement) {
        return {};
    }
    const std::optional<double> yield = bond.yield_of(price.in_256ths / 256.0, *settlement);
    if (!yield) {
        return {};
    }
    return BondValue{price, *yield, settlement->accrued, settlement->date};
}

std::optional<BondValue> BondValues::of_price(const std::string &id, Price price,
                                              const Date &traded) const {
    const QuantBond *one = bond(id);
    if (one == nullptr || !price.is_in_range()) {
        return {};
    }
    const std::lock_guard lock(mutex_);
    if (known_day_ != traded || known_.size() >= most_known) {
        known_.clear();
        known_day_ = traded;
    }
    const auto [known, is_new] = known_.try_emplace({id, price.in_256ths});
    if (is_new) {
        known->second = value(*one, price, traded);
    }
    return known->second;
}

std::optional<BondValue> BondValues::of_yield(const std::string &id, double yield, int grid,
                                              const Date &traded) const {
    const QuantBond *one = bond(id);
    if (one == nullptr) {
        return {};
    }
    std::optional<double> exact;
    {
        const std::lock_guard lock(mutex_);
        const std::optional<Settlement> settlement = one->settlement(traded);
        exact = settlement ? one->price_of(yield, *settlement) : std::nullopt;
    }
    // The greatest price is a 256th below this. What is rounded to more is no price, either.
    if (!exact || !(*exact > 0) || *exact > (Price::greatest + 1) / 256) {
        return {};
    }
    const int step = 256 / grid;
    const auto steps = static_cast<int>(std::lround(*exact * grid));
    return of_price(id, Price{steps * step}, traded);
}

} // namespace desk
