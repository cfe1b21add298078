#include "sample_investor.h"

#include <algorithm>

namespace sample {

namespace tag = desk::tag;
using namespace std::chrono_literals;

void SampleInvestor::begin() {
    after(4s, [this] { ask(); });
}

void SampleInvestor::take(const desk::Message &message) {
    const auto found = open_.find(message.get(tag::quote_req_id));
    if (found == open_.end()) {
        return;
    }
    Asked &asked = found->second;
    const std::string quote = message.get(tag::quote_id);
    if (message.type() == "S") {
        const auto price = message.price(asked.buys ? tag::offer : tag::bid);
        asked.quotes[quote] = price.value_or(desk::Price{});
    } else if (message.type() == "AG" || message.number(tag::status) == 7) {
        open_.erase(found);
    } else if (message.number(tag::status) == 17) {
        asked.quotes.erase(quote);
    }
}

// Asks all dealers for a bond, and the next time after a while.
void SampleInvestor::ask() {
    const desk::Market &market = settings().market;
    const desk::Bond &bond =
        market.bonds[static_cast<std::size_t>(roll(static_cast<int>(market.bonds.size())))];
    const bool buys = roll(2) == 0;
    const std::string request = name('A');
    const desk::Quantity most = std::max<desk::Quantity>(1, market.limits.quantity / 500'000);
    const desk::Quantity quantity =
        500'000 * (1 + roll(static_cast<int>(std::min<desk::Quantity>(6, most))));
    open_[request] = Asked{buys, {}};
    send("R",
         {{tag::quote_req_id, request},
          {tag::symbol, "[N/A]"},
          {tag::security_id, bond.id},
          {tag::id_source, "4"},
          {tag::side, buys ? "1" : "2"},
          {tag::order_qty, std::to_string(quantity)},
          {tag::expire_time, desk::fix_text(desk::now() + 60s)}},
         market.dealers);
    after(20s + std::chrono::seconds(roll(20)), [this, request] { decide(request); });
    after(30s + std::chrono::seconds(roll(30)), [this] { ask(); });
}

// Of five requests it passes one. A hit may be refused: then the request is left to its deadline.
void SampleInvestor::decide(const std::string &request) {
    const auto found = open_.find(request);
    if (found == open_.end()) {
        return;
    }
    const Asked &asked = found->second;
    const auto best = std::min_element(
        asked.quotes.begin(), asked.quotes.end(), [&](const auto &one, const auto &other) {
            return asked.buys ? one.second < other.second : one.second > other.second;
        });
    if (best == asked.quotes.end() || roll(5) == 0) {
        send("AJ", {{tag::response_id, name('P')},
                    {tag::quote_req_id, request},
                    {tag::response_type, "6"}});
    } else {
        send("AJ", {{tag::response_id, name('H')},
                    {tag::quote_id, best->first},
                    {tag::response_type, "1"}});
    }
    open_.erase(found);
}

} // namespace sample
