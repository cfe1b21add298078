#include "investor_day.h"

#include "words.h"

#include <algorithm>

namespace desk {

using State = InvestorRequest::State;

namespace {

// Where the investor buys the lower price is better, where it sells the higher one.
bool is_better(Side side, Price one, Price other) {
    return side == Side::buy ? one < other : one > other;
}

std::optional<Cover> cover_of(const InvestorRequest &request, const Award &award) {
    std::optional<Cover> best;
    for (const ShownQuote &quote : request.quotes) {
        const bool counts = quote.state == ShownQuote::State::live && quote.dealer != award.dealer;
        if (counts && (!best || is_better(request.side, quote.price, best->price))) {
            best = Cover{quote.dealer, quote.price};
        }
    }
    return best;
}

void set_answer(InvestorRequest &request, const std::string &dealer, AskedDealer::Answer answer) {
    for (AskedDealer &one : request.dealers) {
        if (one.name == dealer) {
            one.answer = answer;
        }
    }
}

constexpr const char *withdraws = " withdraws ";

// A replacement is told as a withdrawal and a quote of one moment; a trader reads one line.
void note_quote(InvestorRequest &request, const ShownQuote &quote) {
    const std::string gone = quote.dealer + withdraws;
    const Told last = request.history.empty() ? Told{} : request.history.back();
    if (last.at == quote.at && last.text.starts_with(gone)) {
        request.history.pop_back();
        return request.note(quote.at, quote.dealer + " replaces " + last.text.substr(gone.size()) +
                                          " by " + text_of(quote.price));
    }
    request.note(quote.at, quote.dealer + " quotes " + text_of(quote.price));
}

ShownQuote *quote_of(InvestorRequest &request, const std::string &id) {
    const auto found = std::find_if(request.quotes.begin(), request.quotes.end(),
                                    [&](const ShownQuote &one) { return one.id == id; });
    return found == request.quotes.end() ? nullptr : &*found;
}

} // namespace

const ShownQuote *InvestorRequest::quote(const std::string &id) const {
    const auto found = std::find_if(quotes.begin(), quotes.end(),
                                    [&](const ShownQuote &one) { return one.id == id; });
    return found == quotes.end() ? nullptr : &*found;
}

const InvestorRequest *InvestorDay::request(const std::string &id) const {
    const auto found = requests_.find(id);
    return found == requests_.end() ? nullptr : &found->second;
}

InvestorRequest *InvestorDay::find(const std::string &id) {
    const auto found = requests_.find(id);
    return found == requests_.end() ? nullptr : &found->second;
}

std::string InvestorDay::request_of(const std::string &quote) const {
    const auto found = request_of_quote_.find(quote);
    return found == request_of_quote_.end() ? std::string() : found->second;
}

void InvestorDay::sent(const Message &message, const Sent &own, Moment at) {
    if (message.type() == "R") {
        asked(message, own, at);
    } else if (message.type() == "AJ") {
        responded(message, own, at);
    }
}

void InvestorDay::asked(const Message &message, const Sent &own, Moment at) {
    InvestorRequest request;
    request.id = own.request;
    request.bond = message.get(tag::security_id);
    request.side = message.get(tag::side) == "1" ? Side::buy : Side::sell;
    request.quantity = message.number(tag::order_qty);
    request.deadline = message.moment(tag::expire_time).value_or(at);
    request.made = at;
    request.trader = own.trader;
    request.pending.push_back(Pending{Act::ask, "", own.trader, at});
    for (const std::string &dealer : message.all(tag::party)) {
        request.dealers.push_back(AskedDealer{dealer});
    }
    requests_[own.request] = request;
    ++usage_.open;
    lists_.sent(own.request);
    added(own.request);
    changed(own.request);
}

void InvestorDay::responded(const Message &message, const Sent &own, Moment at) {
    Sent response = own;
    const bool is_pass = message.number(tag::response_type) == 6;
    if (!is_pass) {
        response.request = request_of(own.quote);
    }
    responses_[message.get(tag::response_id)] = response;
    if (InvestorRequest *request = find(response.request)) {
        request->pending.push_back(
            Pending{is_pass ? Act::pass : Act::hit, own.quote, own.trader, at});
        changed(request->id);
    }
}

void InvestorDay::received(const Message &message, Moment at) {
    if (message.has(tag::response_id)) {
        return answered(message, at);
    }
    InvestorRequest *request = find(message.get(tag::quote_req_id));
    if (request == nullptr) {
        return set_alarm("The venue speaks of a request that this desk does not know: its journal "
                         "is incomplete. Call the venue.");
    }
    changed(request->id);
    if (message.type() == "S") {
        return shown(*request, message, at);
    }
    if (message.type() == "AG") {
        request->settle(Act::ask, "");
        end(*request, State::refused, at);
        return request->tell(at, "Request refused: " + request_refusal(message), true,
                             request->trader);
    }
    told(*request, message, at);
}

void InvestorDay::shown(InvestorRequest &request, const Message &message, Moment at) {
    const int field = request.side == Side::buy ? tag::offer : tag::bid;
    ShownQuote quote{message.get(tag::quote_id), message.get(tag::party),
                     message.price(field).value_or(Price{}), message.moment(tag::valid_until), at};
    set_answer(request, quote.dealer, AskedDealer::Answer::quoted);
    note_quote(request, quote);
    request_of_quote_[quote.id] = request.id;
    request.quotes.push_back(std::move(quote));
}

// A QuoteStatusReport that answers no hit and no pass.
void InvestorDay::told(InvestorRequest &request, const Message &message, Moment at) {
    switch (message.number(tag::status)) {
    case 0:
        request.settle(Act::ask, "");
        request.state = State::open;
        ++usage_.accepted;
        return request.note(at, "Accepted by the venue", request.trader);
    case 7:
        if (request.is_open()) {
            end(request, State::expired, at);
        }
        return request.tell(at, "Expired");
    case 11:
        set_answer(request, message.get(tag::party), AskedDealer::Answer::declined);
        return request.note(at, message.get(tag::party) + " declines");
    case 17:
        return taken_back(request, message.get(tag::quote_id), at);
    }
}

void InvestorDay::taken_back(InvestorRequest &request, const std::string &id, Moment at) {
    ShownQuote *quote = quote_of(request, id);
    if (quote == nullptr) {
        return;
    }
    if (quote->state == ShownQuote::State::live) {
        quote->state = ShownQuote::State::gone;
    }
    set_answer(request, quote->dealer, AskedDealer::Answer::took_back);
    request.note(at, quote->dealer + withdraws + text_of(quote->price));
}

// The answer to a hit or a pass.
void InvestorDay::answered(const Message &message, Moment at) {
    const auto found = responses_.find(message.get(tag::response_id));
    InvestorRequest *request = found == responses_.end() ? nullptr : find(found->second.request);
    if (request == nullptr) {
        return notice(at, "The venue answered a hit or a pass that this desk does not know", true);
    }
    const Sent &own = found->second;
    const bool is_hit = !own.quote.empty();
    request->settle(is_hit ? Act::hit : Act::pass, own.quote);
    changed(request->id);
    const std::int64_t status = message.number(tag::status);
    if (status == 0) {
        awarded(*request, message, own, at);
    } else if (status == 11) {
        end(*request, State::passed, at);
        request->tell(at, "Passed", false, own.trader);
    } else {
        request->tell(
            at, std::string(is_hit ? "Hit" : "Pass") + " refused: " + response_refusal(message),
            true, own.trader);
    }
}

void InvestorDay::awarded(InvestorRequest &request, const Message &message, const Sent &hit,
                          Moment at) {
    ShownQuote *quote = quote_of(request, hit.quote);
    if (quote == nullptr) {
        return;
    }
    quote->state = ShownQuote::State::hit;
    request.award = Award{quote->id, quote->dealer, quote->price, hit.trader};
    request.cover = cover_of(request, *request.award);
    request.trade = message.get(tag::trade_id);
    end(request, State::done, at);
    request.tell(at, "Done with " + quote->dealer + " at " + text_of(quote->price), false,
                 hit.trader);
}

void InvestorDay::end(InvestorRequest &request, State state, Moment at) {
    usage_.open -= request.is_open() ? 1 : 0;
    request.state = state;
    request.ended = at;
}

void InvestorDay::failed(const Sent &own, const std::string &why, bool is_refusal, Moment at) {
    InvestorRequest *request = find(own.request.empty() ? request_of(own.quote) : own.request);
    if (request == nullptr) {
        return notice(at, "A message of this desk was " + why, is_refusal);
    }
    const bool is_request = own.type == "R";
    const bool is_hit = !own.quote.empty();
    request->settle(is_request ? Act::ask : is_hit ? Act::hit : Act::pass, own.quote);
    if (is_request) {
        end(*request, is_refusal ? State::refused : State::undelivered, at);
    }
    request->tell(at,
                  (is_request ? "Request "
                   : is_hit   ? "Hit "
                              : "Pass ") +
                      why,
                  true, own.trader);
    changed(request->id);
}

} // namespace desk
