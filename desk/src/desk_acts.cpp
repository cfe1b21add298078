// Does what a trader asks the desk to do.
#include "desk.h"

#include "checks.h"
#include "dealer_day.h"
#include "investor_day.h"

#include <algorithm>

#include <boost/asio/post.hpp>

namespace desk {

namespace {

constexpr std::size_t most_orders = 1024; // commands that wait for the disk
constexpr const char *too_many = "Too many wait to be sent: nothing was sent.";
constexpr const char *waits_already = "Your cancel of all waits to be sent already.";
constexpr const char *too_slow = "The desk's disk was too slow: nothing was sent.";
constexpr const char *not_connected = "Not connected to the venue: nothing was sent.";

template <typename... Some> bool is_one_of(const Command &command) {
    return (std::holds_alternative<Some>(command) || ...);
}

// So that nothing is answered by the wrong side's rules.
bool is_of(Role role, const Command &command) {
    const bool is_investors =
        is_one_of<command::Ask, command::Hit, command::Pass, command::SaveGroup, command::AskList,
                  command::StopList>(command);
    const bool is_dealers =
        is_one_of<command::Quote, command::Withdraw, command::Decline, command::CancelAll,
                  command::ClaimRequest, command::ReleaseRequest, command::HandOver>(command);
    return role == Role::dealer ? !is_investors : !is_dealers;
}

// A cancel is delivered however late: it may be sent while the session is down. The others are
// nothing that the venue would have a part in.
bool may_wait(const Command &command) {
    return !is_one_of<command::Ask, command::AskList, command::Hit, command::Pass, command::Quote,
                      command::Decline>(command);
}

} // namespace

void Desk::act(const Trader &trader, const Command &command, Tell tell) {
    if (is_of(config_.role, command)) {
        stop_programs(trader, command);
    }
    if (const char *why = why_no_room(trader, command)) {
        return tell(why);
    }
    orders_.push_back(Order{&trader, command, now(), std::move(tell)});
    act_next();
}

// A cancel of all has room behind all else that waits, one for each trader: nothing else comes
// behind it before there is room again.
const char *Desk::why_no_room(const Trader &trader, const Command &command) const {
    if (orders_.size() < most_orders) {
        return nullptr;
    }
    if (!is_one_of<command::CancelAll>(command)) {
        return too_many;
    }
    const auto last = std::find_if_not(orders_.rbegin(), orders_.rend(), [](const Order &order) {
        return is_one_of<command::CancelAll>(order.command);
    });
    const bool has_one = std::any_of(orders_.rbegin(), last,
                                     [&](const Order &order) { return order.trader == &trader; });
    return has_one ? waits_already : nullptr;
}

// Each is judged when what was sent before it stands in the journal: no two use one limit.
void Desk::act_next() {
    while (!sending_ && !orders_.empty()) {
        Order order = std::move(orders_.front());
        orders_.pop_front();
        const std::string why = act(order);
        if (why.empty() && is_sent_) {
            sending_ = std::move(order);
        } else {
            order.tell(why);
        }
        is_sent_ = false;
    }
}

void Desk::by_sender(std::function<std::string()> work) {
    is_sent_ = true;
    boost::asio::post(sender_, [this, work = std::move(work)] {
        const std::string why = work();
        boost::asio::post(io_, [this, why] { sent(why); });
    });
}

void Desk::sent(const std::string &why) {
    apply_all(); // so that a second press finds it sent
    const Tell tell = std::move(sending_->tell);
    sending_.reset();
    tell(why);
    act_next();
}

std::string Desk::act(const Order &order) {
    const Trader trader = limits_.applied(*order.trader);
    const Command &command = order.command;
    if (!is_of(config_.role, command)) {
        return config_.role == Role::dealer ? "A dealer's desk does not do this."
                                            : "An investor's desk does not do this.";
    }
    if (const std::string why = why_may_not(trader, command); !why.empty()) {
        return why;
    }
    if (!may_wait(command) && (!is_on_ || !fix_->is_on())) {
        return not_connected;
    }
    if (!may_wait(command) && now() - order.at > config_.deliver_within) {
        return too_slow;
    }
    return std::visit([&](const auto &one) { return act(trader, one); }, command);
}

void Desk::send(const char *type, const Trader &trader, const std::vector<FixField> &fields,
                const std::vector<std::string> &dealers) {
    by_sender([this, type = std::string(type), name = trader.name, fields, dealers] {
        fix_->send(type, name, fields, dealers);
        return std::string();
    });
}

std::string Desk::act(const Trader &trader, const command::Ask &ask) {
    const auto &day = static_cast<const InvestorDay &>(*day_);
    std::string why = why_not(ask, trader, config_.market, day, now());
    if (why.empty()) {
        send("R", trader,
             {{tag::quote_req_id, ask.id.empty() ? identifiers_.next('A') : ask.id},
              {tag::symbol, "[N/A]"},
              {tag::security_id, ask.bond},
              {tag::id_source, "4"},
              {tag::side, std::string(1, static_cast<char>(ask.side))},
              {tag::order_qty, std::to_string(ask.quantity)},
              {tag::expire_time, fix_text(now() + ask.within)}},
             ask.dealers);
    }
    return why;
}

std::string Desk::act(const Trader &trader, const command::Hit &hit) {
    std::string why = why_not(hit, trader, static_cast<const InvestorDay &>(*day_), now());
    if (why.empty()) {
        send("AJ", trader,
             {{tag::response_id, identifiers_.next('H')},
              {tag::quote_id, hit.quote},
              {tag::response_type, "1"}});
    }
    return why;
}

std::string Desk::act(const Trader &trader, const command::Pass &pass) {
    std::string why = why_not(pass, static_cast<const InvestorDay &>(*day_));
    if (why.empty()) {
        send("AJ", trader,
             {{tag::response_id, identifiers_.next('P')},
              {tag::quote_req_id, pass.request},
              {tag::response_type, "6"}});
    }
    return why;
}

std::string Desk::act(const Trader &trader, const command::Quote &quote) {
    const auto &day = static_cast<const DealerDay &>(*day_);
    std::string why = why_not(quote, trader, config_.market, day, now());
    if (why.empty() && trader.is_program) {
        why = why_ask(quote, references_, day);
    }
    if (!why.empty()) {
        return why;
    }
    const DealerRequest &request = *day.request(quote.request);
    std::vector<FixField> fields{
        {tag::quote_req_id, request.id},
        {tag::quote_id, identifiers_.next('Q')},
        {tag::security_id, request.bond},
        {tag::id_source, "4"},
        {request.side == Side::buy ? tag::offer : tag::bid, text_of(quote.price)}};
    if (quote.valid_for) {
        const Moment until = std::min(now() + *quote.valid_for, request.deadline);
        fields.emplace_back(tag::valid_until, fix_text(until));
    }
    send("S", trader, fields);
    return {};
}

std::string Desk::act(const Trader &trader, const command::Withdraw &withdraw) {
    const auto &day = static_cast<const DealerDay &>(*day_);
    std::string why = why_not(withdraw, day);
    if (why.empty()) {
        send("Z", trader,
             {{tag::quote_id, day.request(withdraw.request)->live()->id}, {tag::cancel_type, "5"}});
    }
    return why;
}

std::string Desk::act(const Trader &trader, const command::Decline &decline) {
    std::string why = why_not(decline, static_cast<const DealerDay &>(*day_));
    if (why.empty()) {
        send("AG", trader, {{tag::quote_req_id, decline.request}, {tag::request_reason, "10"}});
    }
    return why;
}

std::string Desk::act(const Trader &trader, const command::CancelAll &) {
    send("Z", trader, {{tag::cancel_type, "4"}});
    return {};
}

std::string Desk::act(const Trader &trader, const command::SaveGroup &group) {
    std::string why = groups_.set(trader.login, group.name, group.dealers);
    if (why.empty()) {
        by_sender(groups_.writer());
    }
    return why;
}

void Desk::note(const Trader &trader, nlohmann::json text) {
    text["login"] = trader.login;
    text["trader"] = trader.name;
    by_sender([this, text = text.dump(-1, ' ', false, nlohmann::json::error_handler_t::replace)] {
        record_.note(text);
        return std::string();
    });
}

std::string Desk::act(const Trader &trader, const command::ClaimRequest &claim) {
    std::string why = why_not(claim, trader, static_cast<const DealerDay &>(*day_));
    if (why.empty()) {
        note(trader, {{"do", "claim"}, {"request", claim.request}});
    }
    return why;
}

std::string Desk::act(const Trader &trader, const command::ReleaseRequest &release) {
    std::string why = why_not(release, static_cast<const DealerDay &>(*day_));
    if (why.empty()) {
        note(trader, {{"do", "release"}, {"request", release.request}});
    }
    return why;
}

std::string Desk::act(const Trader &trader, const command::HandOver &hand_over) {
    std::string why =
        why_not(hand_over, trader, config_.traders, static_cast<const DealerDay &>(*day_));
    if (why.empty()) {
        const auto to = std::find_if(config_.traders.begin(), config_.traders.end(),
                                     [&](const Trader &one) { return one.login == hand_over.to; });
        note(trader, {{"do", "hand over"},
                      {"request", hand_over.request},
                      {"to", to->login},
                      {"to trader", to->name}});
    }
    return why;
}

} // namespace desk
