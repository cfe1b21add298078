// What a firm that logs on is told before its day opens.
#ifndef GATEWAY_SERVICE_CLOSED_FIRMS_H
#define GATEWAY_SERVICE_CLOSED_FIRMS_H

#include "config/config.h"
#include "config/trading_days.h"
#include "firms/authenticator.h"
#include "firms/reply_rate.h"
#include "health/metrics.h"
#include "health/operator_events.h"
#include "recovery/early_numbers.h"
#include "session/session_host.h"

#include <map>
#include <string>

namespace gateway {

// Whether a day of these rules has ended at this moment whose date it still is, and which is not
// that of the next day: the firms' engines have numbers of it, an operator may open it again, and
// so they are to stay as they are.
bool has_ended_on_its_date(const DayRules &rules, const TradingDay &next, SystemSeconds now);

// A venue's firms, whose sessions have not begun.
class ClosedFirms final : public SessionHost {
  public:
    // A Logout, which uses up a number of the day that opens then, is safe or not.
    ClosedFirms(const Config &config, SystemSeconds opens, bool is_safe, Metrics &metrics,
                OperatorEvents &told);

    Refusal judge(const LogonFacts &facts) override;
    Time judges_from(const std::string &address) override {
        return authenticator_.judges_from(address);
    }
    void logon_refused(const std::string &firm, const ConnectionFacts &facts,
                       const std::string &why) override {
        told_.logon_refused(firm, facts, why);
    }
    std::optional<NotOpen> not_open(const std::string &firm) override;
    std::uint64_t put(const std::string &firm, const SessionEvent &event) override;
    void wait_stored(std::uint64_t) override {}

    // Nobody logs on, and so none of these is called.
    std::uint32_t logon_accepted(const std::string &firm, const ConnectionFacts &) override;
    void connection_ended(const std::string &, std::uint32_t, const std::string &) override {}
    void logged_on(const std::string &) override {}
    void logged_off(const std::string &) override {}
    Taken take(const std::string &firm, const SessionInput &, const SessionEvent &) override;
    void all_received() override {}
    std::vector<KeptMessage> kept_messages(const std::string &, std::uint32_t,
                                           std::size_t) override {
        return {};
    }

  private:
    Metrics &metrics_;
    OperatorEvents &told_;
    Authenticator authenticator_;
    EarlyNumbers numbers_;
    const bool is_safe_;
    const std::string text_;                   // 58
    std::map<std::string, ReplyRate> replies_; // each Logout stands in the log
};

} // namespace gateway

#endif
