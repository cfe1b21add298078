#include "service/closed_firms.h"

#include <chrono>
#include <exception>
#include <optional>
#include <stdexcept>

#include <fmt/chrono.h>
#include <fmt/format.h>

namespace gateway {

bool has_ended_on_its_date(const DayRules &rules, const TradingDay &next, SystemSeconds now) {
    const auto midnight = std::chrono::floor<std::chrono::days>(now);
    if (midnight_of(next.date) == midnight) {
        return false;
    }
    const TradingDay first = TradingDays(rules, now).first_after(midnight);
    return midnight_of(first.date) == midnight;
}

ClosedFirms::ClosedFirms(const Config &config, SystemSeconds opens, bool is_safe, Metrics &metrics,
                         OperatorEvents &told)
    : metrics_(metrics), told_(told), authenticator_(config), numbers_(config), is_safe_(is_safe),
      text_(fmt::format("the venue is closed: it opens at {:%Y%m%d-%H:%M:%S} UTC",
                        fmt::gmtime(opens.time_since_epoch().count()))) {
    for (const std::string &name : config.firms.names) {
        replies_.try_emplace(name);
    }
}

Refusal ClosedFirms::judge(const LogonFacts &facts) {
    const Refusal refusal = authenticator_.judge(facts);
    if (refusal == Refusal::wrong_password) {
        metrics_.wrong_password(facts.firm);
    }
    return refusal;
}

std::optional<NotOpen> ClosedFirms::not_open(const std::string &firm) {
    try {
        if (is_safe_ && !replies_.at(firm).are_too_many()) {
            return NotOpen{text_, numbers_.of(firm)};
        }
    } catch (const std::exception &fault) {
        told_.dropped("no Logout", fault.what());
    }
    return NotOpen{text_, std::nullopt};
}

std::uint64_t ClosedFirms::put(const std::string &firm, const SessionEvent &event) {
    numbers_.put(firm, event);
    replies_.at(firm).add(event.replies);
    return 0;
}

std::uint32_t ClosedFirms::logon_accepted(const std::string &firm, const ConnectionFacts &) {
    throw std::runtime_error(firm + ": the day has not opened");
}

Taken ClosedFirms::take(const std::string &firm, const SessionInput &, const SessionEvent &) {
    throw std::runtime_error(firm + ": the day has not opened");
}

} // namespace gateway
