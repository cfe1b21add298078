#include "dealer_day.h"

#include "words.h"

#include <algorithm>

namespace desk {

namespace {

using Quote = OwnQuote::State;
using State = DealerRequest::State;

constexpr const char *incomplete = "its journal is incomplete, and the exposure that is shown may "
                                   "be too low. Cancel all, and call the venue.";

bool counts(Quote state) {
    return state == Quote::live || state == Quote::sent;
}

OwnQuote *quote_of(DealerRequest &request, const std::string &id) {
    const auto found = std::find_if(request.quotes.begin(), request.quotes.end(),
                                    [&](const OwnQuote &one) { return one.id == id; });
    return found == request.quotes.end() ? nullptr : &*found;
}

OwnQuote *live_of(DealerRequest &request) {
    const auto found = std::find_if(request.quotes.begin(), request.quotes.end(),
                                    [](const OwnQuote &one) { return one.state == Quote::live; });
    return found == request.quotes.end() ? nullptr : &*found;
}

// How a request ended matters more than what came too late for it.
void refused(DealerRequest &request, Moment at, const std::string &text,
             const std::string &trader) {
    const std::optional<Told> end = request.is_open() ? std::nullopt : request.told;
    request.tell(at, text, true, trader);
    if (end) {
        request.told = end;
    }
}

// By QuoteRespType (694).
State state_of(std::int64_t type) {
    switch (type) {
    case 1:
        return State::won;
    case 3:
        return State::expired;
    case 4:
        return State::cover;
    case 6:
        return State::passed;
    default:
        return State::away;
    }
}

const char *words_of(State state) {
    switch (state) {
    case State::open:
        return "Open";
    case State::won:
        return "Done";
    case State::cover:
        return "Cover: another dealer won, and your quote was the next best";
    case State::away:
        return "Done away: another dealer won";
    case State::passed:
        return "The investor passed";
    case State::expired:
        return "Expired";
    }
    return "";
}

} // namespace

const OwnQuote *DealerRequest::live() const {
    const auto found = std::find_if(quotes.begin(), quotes.end(),
                                    [](const OwnQuote &one) { return one.state == Quote::live; });
    return found == quotes.end() ? nullptr : &*found;
}

const DealerRequest *DealerDay::request(const std::string &id) const {
    const auto found = requests_.find(id);
    return found == requests_.end() ? nullptr : &found->second;
}

DealerRequest *DealerDay::find(const std::string &request, const std::string &quote) {
    const auto of_quote = request_of_quote_.find(quote);
    const std::string &id =
        request.empty() && of_quote != request_of_quote_.end() ? of_quote->second : request;
    const auto found = requests_.find(id);
    return found == requests_.end() ? nullptr : &found->second;
}

Quantity DealerDay::exposure_of(const std::string &trader) const {
    const auto found = exposure_.find(trader);
    return found == exposure_.end() ? 0 : found->second;
}

// The one place where exposure changes.
void DealerDay::set(DealerRequest &request, OwnQuote &quote, Quote state) {
    const Quantity before = quote.state == Quote::live ? request.quantity : 0;
    const Quantity own_before = counts(quote.state) ? request.quantity : 0;
    quote.state = state;
    usage_.exposure += (state == Quote::live ? request.quantity : 0) - before;
    exposure_[quote.trader] += (counts(state) ? request.quantity : 0) - own_before;
    if (!counts(state)) {
        request.settle(Act::withdraw, quote.id);
        const bool is_cancelled = cancelling_.erase(quote.id) > 0 && state == Quote::withdrawn;
        cancelled_ += is_cancelled ? 1 : 0;
    }
}

void DealerDay::sent(const Message &message, const Sent &own, Moment at) {
    if (own.type == "Z" && message.number(tag::cancel_type) == 4) {
        return cancelled_all(own, at);
    }
    DealerRequest *request = find(own.request, own.quote);
    if (request == nullptr) {
        return;
    }
    changed(request->id);
    if (own.type == "S") {
        quoted(*request, message, own, at);
    } else if (own.type == "Z") {
        request->pending.push_back(Pending{Act::withdraw, own.quote, own.trader, at});
    } else if (own.type == "AG") {
        request->pending.push_back(Pending{Act::decline, "", own.trader, at});
    }
}

void DealerDay::quoted(DealerRequest &request, const Message &message, const Sent &own, Moment at) {
    const int field = request.side == Side::buy ? tag::offer : tag::bid;
    request.quotes.push_back(OwnQuote{own.quote, own.trader, message.price(field).value_or(Price{}),
                                      message.moment(tag::valid_until), at});
    request.pending.push_back(Pending{Act::quote, own.quote, own.trader, at});
    request_of_quote_[own.quote] = request.id;
    exposure_[own.trader] += request.quantity;
}

// Each quote that it may reach is answered for itself.
void DealerDay::cancelled_all(const Sent &own, Moment at) {
    cancelling_.clear();
    cancelled_ = 0;
    for (auto &[id, request] : requests_) {
        for (const OwnQuote &quote : request.quotes) {
            if (request.is_open() && counts(quote.state)) {
                request.pending.push_back(Pending{Act::withdraw, quote.id, own.trader, at});
                cancelling_.insert(quote.id);
                changed(id);
            }
        }
    }
    notice(at, "Cancel all sent by " + own.trader + ", not answered yet", false);
}

// Once each of its quotes has come to an end.
void DealerDay::tell_cancelled(Moment at) {
    notice(at,
           "Cancel all: " + std::to_string(cancelled_) +
               (cancelled_ == 1 ? " quote withdrawn, " : " quotes withdrawn, ") +
               (usage_.exposure == 0 ? "none is live" : "and others are live"),
           false);
}

void DealerDay::received(const Message &message, Moment at) {
    const std::string &name = message.get(tag::quote_req_id), &own = message.get(tag::quote_id);
    if (message.type() == "R") {
        return shown(message, at);
    }
    if (name.empty() && own.empty()) {
        return nothing_cancelled(message, at);
    }
    DealerRequest *request = find(name, own);
    if (request == nullptr) {
        return set_alarm("The venue speaks of a request or a quote that this desk does not know: " +
                         std::string(incomplete));
    }
    changed(request->id);
    const bool is_cancelling = !cancelling_.empty();
    answered(*request, message, at);
    if (is_cancelling && cancelling_.empty()) {
        tell_cancelled(at);
    }
}

// What the venue says of a request that this desk knows.
void DealerDay::answered(DealerRequest &request, const Message &message, Moment at) {
    const bool has_request = message.has(tag::quote_req_id);
    if (message.type() == "AJ") {
        closed(request, message, at);
    } else if (!has_request) {
        cancel_answered(request, message, at);
    } else if (!message.has(tag::quote_id)) {
        decline_answered(request, message, at);
    } else {
        quote_answered(request, message, at);
    }
}

void DealerDay::shown(const Message &message, Moment at) {
    DealerRequest request;
    request.id = message.get(tag::quote_req_id);
    request.bond = message.get(tag::security_id);
    request.side = message.get(tag::side) == "1" ? Side::buy : Side::sell;
    request.quantity = message.number(tag::order_qty);
    request.deadline = message.moment(tag::expire_time).value_or(at);
    request.investor = message.get(tag::party);
    request.made = at;
    ++usage_.open;
    added(request.id);
    changed(request.id);
    requests_[request.id] = std::move(request);
}

void DealerDay::nothing_cancelled(const Message &message, Moment at) {
    forget_withdrawals();
    notice(at,
           "Cancel all: " +
               (message.has(tag::text) ? cancel_refusal(message) : "there was no live quote"),
           false);
}

void DealerDay::closed(DealerRequest &request, const Message &message, Moment at) {
    const std::string &own = message.get(tag::quote_id);
    --usage_.open;
    request.state = state_of(message.number(tag::response_type));
    request.ended = at;
    request.trade = message.get(tag::trade_id);
    for (OwnQuote &quote : request.quotes) {
        if (quote.state == Quote::live) {
            request.result = quote.price;
            set(request, quote, quote.id == own ? Quote::hit : Quote::ended);
        }
    }
    if (request.state == State::won) {
        const int field = request.side == Side::buy ? tag::offer : tag::bid;
        request.result = message.price(field);
        if (quote_of(request, own) == nullptr) {
            set_alarm("A quote was hit that this desk does not know: " + std::string(incomplete));
        }
    }
    request.tell(at, words_of(request.state));
}

void DealerDay::quote_answered(DealerRequest &request, const Message &message, Moment at) {
    OwnQuote *quote = quote_of(request, message.get(tag::quote_id));
    if (quote == nullptr) {
        return set_alarm("The venue has a quote that this desk does not know: " +
                         std::string(incomplete));
    }
    request.settle(Act::quote, quote->id);
    if (message.number(tag::status) != 0) {
        set(request, *quote, Quote::refused);
        return refused(request, at,
                       "Quote " + text_of(quote->price) + " refused: " + quote_refusal(message),
                       quote->trader);
    }
    if (OwnQuote *before = live_of(request)) {
        set(request, *before, Quote::replaced);
    }
    set(request, *quote, Quote::live);
    ++usage_.accepted;
    request.tell(at, "Live: " + text_of(quote->price), false, quote->trader);
}

void DealerDay::cancel_answered(DealerRequest &request, const Message &message, Moment at) {
    OwnQuote *quote = quote_of(request, message.get(tag::quote_id));
    const std::string trader = request.settle(Act::withdraw, message.get(tag::quote_id));
    if (quote == nullptr) {
        return set_alarm("The venue has a quote that this desk does not know: " +
                         std::string(incomplete));
    }
    if (message.number(tag::status) != 17) {
        return refused(request, at, "Withdrawal refused: " + cancel_refusal(message), trader);
    }
    set(request, *quote, Quote::withdrawn);
    request.tell(at, "Withdrawn: " + text_of(quote->price), false, trader);
}

void DealerDay::decline_answered(DealerRequest &request, const Message &message, Moment at) {
    const std::string trader = request.settle(Act::decline, "");
    if (message.number(tag::status) != 11) {
        return refused(request, at, "Decline refused: " + decline_refusal(message), trader);
    }
    request.is_declined = true;
    request.tell(at, "Declined", false, trader);
}

void DealerDay::failed(const Sent &own, const std::string &why, bool is_refusal, Moment at) {
    const bool is_quote = own.type == "S", is_cancel = own.type == "Z";
    if (is_cancel && own.quote.empty()) {
        return cancel_all_failed(why, is_refusal, at);
    }
    DealerRequest *request = find(own.request, own.quote);
    if (request == nullptr) {
        return notice(at, "A message of this desk was " + why, is_refusal);
    }
    changed(request->id);
    request->settle(is_quote ? Act::quote : is_cancel ? Act::withdraw : Act::decline, own.quote);
    OwnQuote *quote = is_quote ? quote_of(*request, own.quote) : nullptr;
    if (quote != nullptr) {
        set(*request, *quote, is_refusal ? Quote::refused : Quote::undelivered);
    }
    const std::string what = quote != nullptr ? "Quote " + text_of(quote->price) + " "
                             : is_cancel      ? "Withdrawal "
                                              : "Decline ";
    request->tell(at, what + why, true, own.trader);
}

void DealerDay::cancel_all_failed(const std::string &why, bool is_refusal, Moment at) {
    forget_withdrawals();
    notice(at, "The cancel of all quotes was " + why, is_refusal);
}

void DealerDay::forget_withdrawals() {
    const auto is_one = [](const Pending &one) { return one.act == Act::withdraw; };
    cancelling_.clear();
    for (auto &[id, request] : requests_) {
        if (std::erase_if(request.pending, is_one) > 0) {
            changed(id);
        }
    }
}

} // namespace desk
