#include "valued_views.h"

#include <cmath>
#include <cstdio>

#include <nlohmann/json.hpp>

namespace desk {

using nlohmann::json;

namespace {

// As many digits as a person compares; more would only make messages longer.
double rounded(double value) {
    return std::round(value * 1e8) / 1e8;
}

std::string text_of(const Date &date) {
    char text[16];
    std::snprintf(text, sizeof text, "%04d-%02u-%02u", int(date.year()), unsigned(date.month()),
                  unsigned(date.day()));
    return text;
}

json view_of(const Amounts &amounts) {
    return {{"principal", static_cast<double>(amounts.principal) / 100},
            {"accrued", static_cast<double>(amounts.accrued) / 100},
            {"total", static_cast<double>(amounts.total) / 100}};
}

// The values of one view's bond.
class OneBond {
  public:
    OneBond(const BondValues &values, const json &view, const Date &traded)
        : values_(values), id_(view.at("bond").get<std::string>()), traded_(traded) {}

    std::optional<BondValue> of(const json &price) const {
        return price.is_number_integer() ? values_.of_price(id_, Price{price.get<int>()}, traded_)
                                         : std::nullopt;
    }
    json yield_of(const json &price) const {
        const std::optional<BondValue> value = of(price);
        return value ? json(rounded(value->yield)) : json();
    }
    json amounts_at(const json &price, Quantity quantity) const {
        const std::optional<BondValue> value = of(price);
        return value ? view_of(amounts_of(quantity, *value)) : json();
    }
    std::optional<Settlement> settlement() const { return values_.settlement(id_, traded_); }

  private:
    const BondValues &values_;
    const std::string id_;
    const Date traded_;
};

void add_trade(json &view, const OneBond &bond) {
    const bool is_done = view.at("state") == "done";
    const auto award = view.find("award");
    const json price = award != view.end() ? award->at("price") : view.value("result", json());
    if (award != view.end()) {
        (*award)["yield"] = bond.yield_of(price);
    } else if (view.contains("result")) {
        view["resultYield"] = bond.yield_of(price);
    }
    view["amounts"] =
        is_done ? bond.amounts_at(price, view.at("quantity").get<Quantity>()) : json();
}

} // namespace

void add_values(json &view, const BondValues &values, const Date &traded) {
    const OneBond bond(values, view, traded);
    const std::optional<Settlement> settlement = bond.settlement();
    view["settles"] = settlement ? json(text_of(settlement->date)) : json();
    view["accrued"] = settlement ? json(rounded(settlement->accrued)) : json();
    for (json &quote : view.at("quotes")) {
        quote["yield"] = bond.yield_of(quote.at("price"));
    }
    add_trade(view, bond);
}

json view_of(const Bond &bond, const BondValues &values, const Date &traded) {
    json view{{"id", bond.id}, {"name", bond.name}, {"grid", bond.grid}, {"priced", false}};
    if (!bond.band.has_all()) {
        view["low"] = bond.band.low.in_256ths;
        view["high"] = bond.band.high.in_256ths;
    }
    const BondTerms *terms = values.terms(bond.id);
    const std::optional<Settlement> settlement = values.settlement(bond.id, traded);
    if (terms != nullptr && settlement) {
        view["priced"] = true;
        view["currency"] = terms->currency;
        view["coupon"] = terms->coupon;
        view["maturity"] = text_of(terms->maturity);
        view["settles"] = text_of(settlement->date);
    }
    return view;
}

json view_of(const BondValue &value, const BondTerms &terms, Quantity quantity) {
    return {{"price", value.price.in_256ths},
            {"yield", rounded(value.yield)},
            {"accrued", rounded(value.accrued)},
            {"settles", text_of(value.settles)},
            {"amounts", view_of(amounts_of(quantity, value))},
            {"currency", terms.currency}};
}

} // namespace desk
