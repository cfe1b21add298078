// What the gateway's port answers before a day opens.
#ifndef GATEWAY_SERVICE_CLOSED_VENUE_H
#define GATEWAY_SERVICE_CLOSED_VENUE_H

#include "config/config.h"
#include "config/trading_days.h"
#include "health/metrics.h"
#include "health/operator_events.h"
#include "service/closed_firms.h"
#include "session/engine.h"
#include "session/listening_port.h"

#include <memory>
#include <vector>

#include <spdlog/logger.h>

namespace gateway {

// Refuses each Logon: one with right credentials by a Logout that says when the day opens, where a
// Logout is safe. All else is as it is on a day: a stranger is told nothing, and has the same
// limits.
class ClosedVenue {
  public:
    // Of the configurations that are in force for the day; `port` is what another one has given, if
    // there was one. Throws std::runtime_error where the address can't be had, or a certificate
    // can't be used.
    ClosedVenue(std::vector<Config> configs, const TradingDay &day, ListeningPort port,
                Metrics &metrics, std::shared_ptr<spdlog::logger> events);
    // Ends its connections at once.
    ~ClosedVenue();
    ClosedVenue(const ClosedVenue &) = delete;
    ClosedVenue &operator=(const ClosedVenue &) = delete;

    // Tells the operator what was left out; to be called each second.
    void look() { told_.tell_rest(); }
    // Takes no more connections. Whoever connects from now on waits in the port.
    ListeningPort give_port() { return engine_.give_port(); }

    // The date of its messages, and so the last one on which it may stand.
    const std::string &date() const { return date_; }

  private:
    std::vector<SessionStart> starts();

    const std::vector<Config> configs_;
    const std::string date_;
    OperatorEvents told_;
    std::vector<std::unique_ptr<ClosedFirms>> firms_; // of each venue
    Engine engine_;
};

} // namespace gateway

#endif
