// Listens at a port, and takes connections.
#ifndef GATEWAY_SESSION_LISTENING_PORT_H
#define GATEWAY_SESSION_LISTENING_PORT_H

#include "common/descriptor.h"
#include "session/engine_settings.h"

#include <cstdint>
#include <string>

namespace gateway {

// Connections that nobody has taken yet wait in it. So it may go from one engine to the next, and
// whoever connects between the two is taken by the second.
class ListeningPort {
  public:
    // None.
    ListeningPort() = default;
    // Throws std::runtime_error where the address can't be had.
    explicit ListeningPort(const EngineSettings &settings);

    bool is_open() const { return socket_.number() >= 0; }
    // Whether it is open at the address of these settings.
    bool is_at(const EngineSettings &settings) const;
    int number() const { return socket_.number(); }

  private:
    Descriptor socket_;
    std::string address_;
    std::uint16_t port_ = 0;
};

} // namespace gateway

#endif
