// Counts what happens at connections and sessions, and tells the operator.
#ifndef GATEWAY_HEALTH_OPERATOR_EVENTS_H
#define GATEWAY_HEALTH_OPERATOR_EVENTS_H

#include "base/limiter.h"
#include "health/metrics.h"
#include "session/engine_events.h"
#include "session/refused_numbers.h"

#include <functional>
#include <memory>
#include <string>
#include <utility>

#include <spdlog/logger.h>

namespace gateway {

// All is counted. What anybody may cause is told as often as a Limiter lets it, in lines of 200
// bytes at most.
class OperatorEvents final : public EngineEvents {
  public:
    OperatorEvents(Metrics &metrics, std::shared_ptr<spdlog::logger> events);

    // Who is told of each stranger beside the operator. To be set before any comes.
    using Stranger = std::function<void(const ConnectionFacts &facts, const std::string &why)>;
    void tell_strangers_to(Stranger listener) { strangers_ = std::move(listener); }

    // A Logon in a firm's name was refused.
    void logon_refused(const std::string &firm, const ConnectionFacts &facts,
                       const std::string &why);
    // A firm is let in whose engine may have lost its store.
    void may_have_lost_store(const std::string &firm, const NumberClimb &climb);
    // Tells how many lines were left out of which none came for a while; to be called each second.
    void tell_rest();
    // The same of all, at the end.
    void tell_last_rest();

    // EngineEvents
    void connection_opened(const std::string &peer) override;
    void connection_closed(const std::string &peer) override;
    void stranger(const ConnectionFacts &facts, const std::string &why,
                  const std::string &text) override;
    void refused(const std::string &what, const std::string &text) override;
    void dropped(const std::string &what, const std::string &text) override;
    void delivered(const Delivery &delivery) override;

  private:
    void tell(const std::vector<Limiter::Rest> &rest);

    Metrics &metrics_;
    std::shared_ptr<spdlog::logger> events_;
    Stranger strangers_;
    Limiter lines_;
};

} // namespace gateway

#endif
