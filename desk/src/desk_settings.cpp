// Changes what the firm's admin sets while the desk runs, and stops and releases the firm's
// programs.
#include "checks.h"
#include "desk.h"

#include <algorithm>
#include <utility>

#include <boost/asio/post.hpp>
#include <nlohmann/json.hpp>

namespace desk {

using nlohmann::json;

namespace {

json limit_of(const std::optional<Quantity> &most) {
    return most ? json(*most) : json();
}

template <typename... Some> bool is_one_of(const Command &command) {
    return (std::holds_alternative<Some>(command) || ...);
}

bool is_admins(const Command &command) {
    return is_one_of<command::SetLimits, command::SetReference, command::SetDistance>(command);
}

bool is_programs(const Command &command) {
    return is_one_of<command::Ask, command::Hit, command::Pass, command::Quote, command::Withdraw,
                     command::Decline, command::SetReference>(command);
}

} // namespace

std::string Desk::why_may_not(const Trader &trader, const Command &command) const {
    if (trader.is_program && !is_programs(command)) {
        return "A program may not do this.";
    }
    if (trader.is_program && programs_.is_stopped(trader.name) &&
        !std::holds_alternative<command::Withdraw>(command)) {
        return "This program is stopped: a trader has to release it.";
    }
    if (is_admins(command)) {
        return trader.is_admin ? "" : "Only the firm's admin may do this.";
    }
    const bool controls = is_one_of<command::StopProgram, command::ReleaseProgram>(command);
    const bool may = trader.may_act || (controls && trader.is_admin);
    return may ? "" : "You may only look: ask for the permission to act.";
}

json Desk::view_of(const Trader &trader) const {
    const Trader current = limits_.applied(trader);
    return {{"name", current.name},
            {"login", current.login},
            {"mayAct", current.may_act},
            {"isAdmin", current.is_admin},
            {"isProgram", current.is_program},
            {"quantity", limit_of(current.quantity)},
            {"exposure", limit_of(current.exposure)}};
}

json Desk::limits() const {
    json all = json::array();
    const auto *day = dynamic_cast<const DealerDay *>(day_.get());
    for (const Trader &one : config_.traders) {
        const Trader current = limits_.applied(one);
        all.push_back({{"login", one.login},
                       {"trader", one.name},
                       {"mayAct", one.may_act},
                       {"quantity", limit_of(current.quantity)},
                       {"exposure", limit_of(current.exposure)},
                       {"used", day != nullptr ? exposure_of(one, *day) : 0}});
    }
    return {{"t", "limits"}, {"traders", std::move(all)}};
}

void Desk::connected(const Program &program, bool is_on) {
    programs_.connected(program.acts_as.name, is_on);
    audience_->tell(programs_.view());
}

void Desk::stop_programs(const Trader &trader, const Command &command) {
    const auto *stop = std::get_if<command::StopProgram>(&command);
    const bool is_cancel = std::holds_alternative<command::CancelAll>(command);
    if ((stop == nullptr && !is_cancel) || config_.programs.empty() ||
        !why_may_not(trader, command).empty()) {
        return;
    }
    if (is_cancel) {
        programs_.stop_all(trader.login, now());
    } else if (programs_.named(stop->name) != nullptr) {
        programs_.stop(stop->name, trader.login, now());
    }
    boost::asio::post(sender_, [this, write = programs_.writer()] {
        const std::string why = write();
        if (!why.empty()) {
            events_.tell("The stop of programs: " + why);
        }
    });
    audience_->tell(programs_.view());
}

void Desk::tick() {
    if (std::exchange(has_new_references_, false)) {
        audience_->tell(references_.view());
    }
    ask_lists();
}

std::string Desk::act(const Trader &trader, const command::SetLimits &limits) {
    const bool has = std::any_of(config_.traders.begin(), config_.traders.end(),
                                 [&](const Trader &one) { return one.login == limits.login; });
    if (!has) {
        return "The desk has no trader '" + limits.login + "'.";
    }
    limits_.set(limits.login, {limits.quantity, limits.exposure});
    events_.tell("Limits of " + limits.login + " set by " + trader.login + ": quantity " +
                 limit_of(limits.quantity).dump() + ", exposure " +
                 limit_of(limits.exposure).dump());
    by_sender(limits_.writer());
    return {};
}

std::string Desk::act(const Trader &trader, const command::SetReference &reference) {
    const Bond *bond = config_.market.bond(reference.bond);
    if (bond == nullptr) {
        return "The market has no bond '" + reference.bond + "'.";
    }
    if (reference.price && !reference.price->is_in_range()) {
        return "This is no price that the venue would take.";
    }
    references_.set(bond->id, reference.price, trader.login, now());
    has_new_references_ = true;
    by_sender(references_.writer());
    return {};
}

std::string Desk::act(const Trader &trader, const command::SetDistance &distance) {
    const Price far = distance.distance.value_or(References::usual_distance);
    if (!far.is_in_range()) {
        return "The distance has to be from 1/256 to 999 points.";
    }
    references_.set_distance(far);
    events_.tell("Distance from references set by " + trader.login + ": " + text_of(far));
    has_new_references_ = true;
    by_sender(references_.writer());
    return {};
}

std::string Desk::act(const Trader &trader, const command::StopProgram &stop) {
    if (programs_.named(stop.name) == nullptr) {
        return "The desk has no program '" + stop.name + "'.";
    }
    events_.tell("Program " + stop.name + " stopped by " + trader.login);
    by_sender(programs_.writer()); // it is stopped already: the answer comes when that is kept
    return {};
}

std::string Desk::act(const Trader &trader, const command::ReleaseProgram &release) {
    if (programs_.named(release.name) == nullptr) {
        return "The desk has no program '" + release.name + "'.";
    }
    if (!programs_.is_stopped(release.name)) {
        return "This program is not stopped.";
    }
    programs_.release(release.name);
    events_.tell("Program " + release.name + " released by " + trader.login);
    audience_->tell(programs_.view());
    by_sender(programs_.writer());
    return {};
}

} // namespace desk
