// What happens at connections and sessions, for the operator.
#ifndef GATEWAY_SESSION_ENGINE_EVENTS_H
#define GATEWAY_SESSION_ENGINE_EVENTS_H

#include "session/connection_facts.h"
#include "session/session_event.h"

#include <string>

namespace gateway {

// What happens at connections and sessions, told for the operator; of any thread. what is one of a
// few fixed words.
class EngineEvents {
  public:
    virtual ~EngineEvents() = default;

    // For counters, of every connection. What a connection's end means is told by stranger(), or by
    // logon_refused() or connection_ended() of its session's host: by one of the three.
    virtual void connection_opened(const std::string &peer) = 0;
    virtual void connection_closed(const std::string &peer) = 0;
    // A connection that ended without a Logon in a firm's name, or was not taken; `why` is one of a
    // few fixed words (refusal_words.h), `text` what else is known, which may be the sender's
    // own words: of any length, and with any bytes. Whoever connects may have this called.
    virtual void stranger(const ConnectionFacts &facts, const std::string &why,
                          const std::string &text) = 0;
    // The system gives no connection.
    virtual void refused(const std::string &what, const std::string &text) = 0;
    virtual void dropped(const std::string &what, const std::string &text) = 0;
    // A message of the venue is in its session's store, and left for the firm if that is there.
    virtual void delivered(const Delivery & /*delivery*/) {}
};

} // namespace gateway

#endif
