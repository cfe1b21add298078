// Writes a day's requests as the page has them. Prices are in 256ths, moments in milliseconds since
// 1970.
#include "dealer_day.h"
#include "investor_day.h"

#include <nlohmann/json.hpp>

namespace desk {

using nlohmann::json;

namespace {

const char *name_of(InvestorRequest::State state) {
    using State = InvestorRequest::State;
    switch (state) {
    case State::sent:
        return "sent";
    case State::open:
        return "open";
    case State::refused:
        return "refused";
    case State::undelivered:
        return "undelivered";
    case State::done:
        return "done";
    case State::passed:
        return "passed";
    case State::expired:
        return "expired";
    }
    return "";
}

const char *name_of(DealerRequest::State state) {
    using State = DealerRequest::State;
    switch (state) {
    case State::open:
        return "open";
    case State::won:
        return "done";
    case State::cover:
        return "cover";
    case State::away:
        return "away";
    case State::passed:
        return "passed";
    case State::expired:
        return "expired";
    }
    return "";
}

const char *name_of(AskedDealer::Answer answer) {
    using Answer = AskedDealer::Answer;
    switch (answer) {
    case Answer::none:
        return "none";
    case Answer::quoted:
        return "quoted";
    case Answer::declined:
        return "declined";
    case Answer::took_back:
        return "took back";
    }
    return "";
}

const char *name_of(ShownQuote::State state) {
    using State = ShownQuote::State;
    return state == State::live ? "live" : state == State::gone ? "gone" : "hit";
}

const char *name_of(OwnQuote::State state) {
    using State = OwnQuote::State;
    switch (state) {
    case State::sent:
        return "sent";
    case State::live:
        return "live";
    case State::replaced:
        return "replaced";
    case State::withdrawn:
        return "withdrawn";
    case State::refused:
        return "refused";
    case State::undelivered:
        return "undelivered";
    case State::hit:
        return "hit";
    case State::ended:
        return "ended";
    }
    return "";
}

json view_of(const std::optional<Moment> &moment) {
    return moment ? json(milliseconds_of(*moment)) : json();
}

json view_of(const Told &told) {
    return {{"at", milliseconds_of(told.at)},
            {"text", told.text},
            {"refusal", told.is_refusal},
            {"trader", told.trader}};
}

json view_of(const std::optional<Claim> &claim) {
    return claim ? json{{"login", claim->login},
                        {"trader", claim->trader},
                        {"at", milliseconds_of(claim->at)}}
                 : json();
}

// What both sides have.
json terms_of(const Request &request) {
    json out{{"id", request.id},
             {"bond", request.bond},
             {"side", request.side == Side::buy ? "buy" : "sell"},
             {"quantity", request.quantity},
             {"deadline", milliseconds_of(request.deadline)},
             {"made", milliseconds_of(request.made)},
             {"ended", view_of(request.ended)},
             {"trade", request.trade},
             {"claimed", view_of(request.claim)},
             {"told", request.told ? view_of(*request.told) : json()},
             {"pending", json::array()},
             {"history", json::array()}};
    for (const Pending &one : request.pending) {
        out["pending"].push_back({{"act", name_of(one.act)},
                                  {"quote", one.quote},
                                  {"trader", one.trader},
                                  {"since", milliseconds_of(one.since)}});
    }
    for (const Told &told : request.history) {
        out["history"].push_back(view_of(told));
    }
    return out;
}

json view_of(const ShownQuote &quote) {
    return {{"id", quote.id},
            {"dealer", quote.dealer},
            {"price", quote.price.in_256ths},
            {"valid", view_of(quote.valid_until)},
            {"at", milliseconds_of(quote.at)},
            {"state", name_of(quote.state)}};
}

json view_of(const OwnQuote &quote) {
    return {{"id", quote.id},
            {"trader", quote.trader},
            {"price", quote.price.in_256ths},
            {"valid", view_of(quote.valid_until)},
            {"at", milliseconds_of(quote.at)},
            {"state", name_of(quote.state)}};
}

} // namespace

json InvestorDay::view(const std::string &id) const {
    const InvestorRequest &request = requests_.at(id);
    json out = terms_of(request);
    out["state"] = name_of(request.state);
    out["trader"] = request.trader;
    out["dealers"] = json::array();
    for (const AskedDealer &dealer : request.dealers) {
        out["dealers"].push_back({{"name", dealer.name}, {"answer", name_of(dealer.answer)}});
    }
    out["quotes"] = json::array();
    for (const ShownQuote &quote : request.quotes) {
        out["quotes"].push_back(view_of(quote));
    }
    if (request.award) {
        out["award"] = {{"dealer", request.award->dealer},
                        {"price", request.award->price.in_256ths},
                        {"trader", request.award->trader}};
    }
    if (request.cover) {
        out["cover"] = {{"dealer", request.cover->dealer},
                        {"price", request.cover->price.in_256ths}};
    }
    return out;
}

json DealerDay::view(const std::string &id) const {
    const DealerRequest &request = requests_.at(id);
    json out = terms_of(request);
    out["state"] = name_of(request.state);
    out["investor"] = request.investor;
    out["declined"] = request.is_declined;
    out["result"] = request.result ? json(request.result->in_256ths) : json();
    out["quotes"] = json::array();
    for (const OwnQuote &quote : request.quotes) {
        out["quotes"].push_back(view_of(quote));
    }
    return out;
}

} // namespace desk
