#include "checks.h"

#include <algorithm>
#include <cstdlib>
#include <set>

namespace desk {

namespace {

constexpr std::size_t most_dealers = 8;           // of one request
constexpr std::size_t most_lists_of_day = 256;    // which the journal and each page have
constexpr std::chrono::seconds least_deadline{5}; // in which a dealer can answer
constexpr std::chrono::seconds most_deadline{24 * 3600};

constexpr const char *has_ended = "The request has ended.";

std::string grouped(Quantity quantity) {
    std::string text = std::to_string(quantity);
    for (auto at = static_cast<std::ptrdiff_t>(text.size()) - 3; at > 0; at -= 3) {
        text.insert(static_cast<std::size_t>(at), ",");
    }
    return text;
}

// One act of a request is answered before the next one is sent.
std::string why_wait(const Request &request) {
    if (request.pending.empty()) {
        return {};
    }
    const Pending &first = request.pending.front();
    return std::string("Wait: the ") + name_of(first.act) + " of " + first.trader +
           " is not answered yet.";
}

std::string why_not_dealers(const std::vector<std::string> &dealers, const Market &market) {
    if (dealers.empty() || dealers.size() > most_dealers) {
        return "Choose 1 to " + std::to_string(most_dealers) + " dealers.";
    }
    for (const std::string &dealer : dealers) {
        if (std::count(market.dealers.begin(), market.dealers.end(), dealer) == 0) {
            return "The venue has no dealer '" + dealer + "'.";
        }
    }
    const std::set<std::string> distinct(dealers.begin(), dealers.end());
    return distinct.size() == dealers.size() ? "" : "A dealer is named twice.";
}

std::string why_not_quantity(Quantity quantity, Quantity most) {
    return quantity >= 1 && quantity <= most
               ? ""
               : "The quantity has to be from 1 to " + grouped(most) + ".";
}

std::string why_not_deadline(std::chrono::seconds within, Moment now) {
    if (within < least_deadline) {
        return "The deadline has to be " + std::to_string(least_deadline.count()) +
               " seconds away at least.";
    }
    return within <= most_deadline && date_of(now + within) == date_of(now)
               ? ""
               : "The deadline is after midnight in UTC, when the venue's day ends.";
}

bool has(const std::vector<std::string> &names, const std::string &name) {
    return std::find(names.begin(), names.end(), name) != names.end();
}

std::string why_not_exposure(const DealerRequest &request, const Trader &trader,
                             const Market &market, const DealerDay &day) {
    const OwnQuote *live = request.live();
    const Quantity replaced = live != nullptr ? request.quantity : 0;
    const Quantity exposure = day.usage().exposure - replaced + request.quantity;
    if (exposure > market.limits.exposure) {
        return "The exposure would be " + grouped(exposure) + " of " +
               grouped(market.limits.exposure) + ": withdraw another quote first.";
    }
    const bool is_own =
        live != nullptr && (live->trader == trader.name || has(trader.names, live->trader));
    const Quantity own = exposure_of(trader, day) - (is_own ? replaced : 0) + request.quantity;
    if (trader.exposure && own > *trader.exposure) {
        return "Your own exposure would be " + grouped(own) + " of the " +
               grouped(*trader.exposure) + " that your desk allows you.";
    }
    return {};
}

std::string why_not_price(Price price, const Bond &bond) {
    if (!price.is_in_range() || !price.is_on_grid(bond.grid)) {
        return "The price is off the bond's grid of 1/" + std::to_string(bond.grid) + ".";
    }
    return bond.band.has(price)
               ? ""
               : "The price is outside the bond's band of " + text_of(bond.band.low) + " to " +
                     text_of(bond.band.high) + ".";
}

bool is_far(Price one, Price other, Price distance) {
    return std::abs(one.in_256ths - other.in_256ths) > distance.in_256ths;
}

bool is_price_of_firm(const OwnQuote &quote) {
    return quote.state != OwnQuote::State::refused && quote.state != OwnQuote::State::undelivered;
}

// What was withdrawn may have been a slip.
bool is_kept(const OwnQuote &quote) {
    return is_price_of_firm(quote) && quote.state != OwnQuote::State::withdrawn;
}

// The firm's last price on the bond and side of a request that it counts; null where there is none.
const OwnQuote *last_like(const DealerRequest &like, const DealerDay &day,
                          bool (*counts)(const OwnQuote &)) {
    const OwnQuote *last = nullptr;
    for (const std::string &id : day.requests()) {
        const DealerRequest &one = *day.request(id);
        if (one.bond != like.bond || one.side != like.side) {
            continue;
        }
        const auto own = std::find_if(one.quotes.rbegin(), one.quotes.rend(), counts);
        if (own != one.quotes.rend() && (last == nullptr || last->at <= own->at)) {
            last = &*own;
        }
    }
    return last;
}

// A program that has withdrawn all its prices is held against the last of them.
const OwnQuote *last_like(const DealerRequest &like, const DealerDay &day) {
    const OwnQuote *kept = last_like(like, day, is_kept);
    return kept != nullptr ? kept : last_like(like, day, is_price_of_firm);
}

// The firm's live quotes on the bond of a request, but its own.
std::vector<Price> live_beside(const DealerRequest &request, const DealerDay &day) {
    std::vector<Price> prices;
    for (const std::string &id : day.requests()) {
        const DealerRequest &one = *day.request(id);
        if (one.bond == request.bond && id != request.id && one.live() != nullptr) {
            prices.push_back(one.live()->price);
        }
    }
    return prices;
}

} // namespace

Quantity exposure_of(const Trader &trader, const DealerDay &day) {
    if (trader.names.empty()) {
        return day.exposure_of(trader.name);
    }
    Quantity sum = 0;
    for (const std::string &name : trader.names) {
        sum += day.exposure_of(name);
    }
    return sum;
}

std::string why_ask(const command::Quote &quote, const References &references,
                    const DealerDay &day) {
    const DealerRequest &request = *day.request(quote.request);
    const Reference *reference = references.of(request.bond);
    const OwnQuote *last = last_like(request, day);
    const std::vector<Price> live = live_beside(request, day);
    if (reference == nullptr && last == nullptr && live.empty()) {
        return "There is nothing to compare the price with: the firm sets a reference first.";
    }
    const Price distance = references.distance();
    const std::string far = "The price is more than " + text_of(distance) + " from ";
    if (reference != nullptr && is_far(quote.price, reference->price, distance)) {
        return far + "the reference " + text_of(reference->price) + ".";
    }
    if (last != nullptr && is_far(quote.price, last->price, distance)) {
        return far + "the firm's last one, " + text_of(last->price) + ".";
    }
    for (const Price own : live) {
        if (is_far(quote.price, own, distance)) {
            return far + "the firm's live quote " + text_of(own) + ".";
        }
    }
    return {};
}

namespace {

// But for what the firm has used of its limits.
std::string why_not_terms(const command::Ask &ask, const Trader &trader, const Market &market,
                          Moment now) {
    if (market.bond(ask.bond) == nullptr) {
        return "Choose a bond.";
    }
    const Quantity most =
        std::min(market.limits.quantity, trader.quantity.value_or(market.limits.quantity));
    for (const std::string &why :
         {why_not_quantity(ask.quantity, most), why_not_deadline(ask.within, now),
          why_not_dealers(ask.dealers, market)}) {
        if (!why.empty()) {
            return why;
        }
    }
    return {};
}

} // namespace

std::string why_not(const command::Ask &ask, const Trader &trader, const Market &market,
                    const InvestorDay &day, Moment now) {
    if (std::string why = why_not_terms(ask, trader, market, now); !why.empty()) {
        return why;
    }
    if (day.usage().open >= market.limits.open) {
        return "As many requests are open as your firm may have: pass one first.";
    }
    return day.usage().accepted >= market.limits.requests
               ? "Your firm's requests of the day are used up."
               : "";
}

std::string why_not(const command::AskList &list, const Trader &trader, const Market &market,
                    const InvestorDay &day, Moment now) {
    if (day.lists().all().size() >= most_lists_of_day) {
        return "The desk takes " + std::to_string(most_lists_of_day) + " lists a day.";
    }
    std::size_t count = 0;
    for (const ListLine &line : list.lines) {
        ++count;
        const std::string why = why_not_terms(
            command::Ask{line.bond, line.side, line.quantity, list.within, list.dealers}, trader,
            market, now);
        if (!why.empty()) {
            return "Line " + std::to_string(count) + ": " + why;
        }
    }
    const auto left = std::max(0, market.limits.requests - day.usage().accepted);
    return count > static_cast<std::size_t>(left)
               ? "Your firm may ask " + std::to_string(left) + " requests more today."
               : "";
}

std::string why_not(const command::Hit &hit, const Trader &trader, const InvestorDay &day,
                    Moment now) {
    const InvestorRequest *request = day.request(hit.request);
    if (request == nullptr || !request->is_open()) {
        return has_ended;
    }
    if (const std::string why = why_wait(*request); !why.empty()) {
        return why;
    }
    const ShownQuote *quote = request->quote(hit.quote);
    if (quote == nullptr || quote->state != ShownQuote::State::live) {
        return "This quote is gone.";
    }
    if (quote->price != hit.price) {
        return "Another price was shown to you: look again.";
    }
    if (quote->is_over(now)) {
        return "This quote's validity is over.";
    }
    return trader.quantity && request->quantity > *trader.quantity
               ? "The quantity is above the " + grouped(*trader.quantity) +
                     " that your desk allows you."
               : "";
}

std::string why_not(const command::Pass &pass, const InvestorDay &day) {
    const InvestorRequest *request = day.request(pass.request);
    if (request == nullptr || !request->is_open()) {
        return has_ended;
    }
    return why_wait(*request);
}

std::string why_not(const command::Quote &quote, const Trader &trader, const Market &market,
                    const DealerDay &day, Moment now) {
    const DealerRequest *request = day.request(quote.request);
    if (request == nullptr || !request->is_open()) {
        return has_ended;
    }
    if (const std::string why = why_wait(*request); !why.empty()) {
        return why;
    }
    if (request->is_declined) {
        return "You declined this request.";
    }
    if (request->deadline <= now) {
        return "The deadline has come.";
    }
    const OwnQuote *live = request->live();
    if ((live != nullptr ? live->id : "") != quote.replaces) {
        return "The live quote is another one than you were shown: look again.";
    }
    const Bond *bond = market.bond(request->bond);
    if (std::string why = why_not_price(quote.price, bond != nullptr ? *bond : Bond{});
        !why.empty()) {
        return why;
    }
    if (trader.quantity && request->quantity > *trader.quantity) {
        return "The quantity is above the " + grouped(*trader.quantity) +
               " that your desk allows you.";
    }
    if (day.usage().accepted >= market.limits.quotes) {
        return "Your firm's quotes of the day are used up.";
    }
    return why_not_exposure(*request, trader, market, day);
}

std::string why_not(const command::Withdraw &withdraw, const DealerDay &day) {
    const DealerRequest *request = day.request(withdraw.request);
    if (request == nullptr || !request->is_open()) {
        return has_ended;
    }
    if (request->awaits(Act::withdraw)) {
        return "The withdrawal is sent already, and not answered yet.";
    }
    return request->live() != nullptr ? "" : "There is no live quote to withdraw.";
}

std::string why_not(const command::Decline &decline, const DealerDay &day) {
    const DealerRequest *request = day.request(decline.request);
    if (request == nullptr || !request->is_open()) {
        return has_ended;
    }
    if (const std::string why = why_wait(*request); !why.empty()) {
        return why;
    }
    if (request->live() != nullptr) {
        return "Withdraw the live quote first.";
    }
    return request->is_declined ? "It is declined already." : "";
}

std::string why_not(const command::ClaimRequest &claim, const Trader &trader,
                    const DealerDay &day) {
    const DealerRequest *request = day.request(claim.request);
    if (request == nullptr || !request->is_open()) {
        return has_ended;
    }
    if (!request->claim) {
        return {};
    }
    return request->claim->login == trader.login ? "You have claimed it already."
                                                 : request->claim->trader + " has claimed it.";
}

std::string why_not(const command::ReleaseRequest &release, const DealerDay &day) {
    const DealerRequest *request = day.request(release.request);
    if (request == nullptr || !request->is_open()) {
        return has_ended;
    }
    return request->claim ? "" : "Nobody has claimed it.";
}

std::string why_not(const command::HandOver &hand_over, const Trader &trader,
                    const std::vector<Trader> &traders, const DealerDay &day) {
    const DealerRequest *request = day.request(hand_over.request);
    if (request == nullptr || !request->is_open()) {
        return has_ended;
    }
    if (request->claim && request->claim->login != trader.login) {
        return request->claim->trader + " has claimed it.";
    }
    const bool may_act = std::any_of(traders.begin(), traders.end(), [&](const Trader &one) {
        return one.login == hand_over.to && one.may_act;
    });
    if (!may_act) {
        return "The desk has no trader '" + hand_over.to + "' who may quote.";
    }
    return hand_over.to == trader.login ? "Claim it, rather than hand it to yourself." : "";
}

} // namespace desk
