// Events of the engine that nobody looks at.
#ifndef GATEWAY_TESTS_NO_EVENTS_H
#define GATEWAY_TESTS_NO_EVENTS_H

#include "session/engine_events.h"

#include <string>

namespace gateway::tests {

class NoEvents : public EngineEvents {
  public:
    void connection_opened(const std::string &) override {}
    void connection_closed(const std::string &) override {}
    void stranger(const ConnectionFacts &, const std::string &, const std::string &) override {}
    void refused(const std::string &, const std::string &) override {}
    void dropped(const std::string &, const std::string &) override {}
};

} // namespace gateway::tests

#endif
