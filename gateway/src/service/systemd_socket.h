// The socket by which systemd learns how a service is: sd_notify(3).
#ifndef GATEWAY_SERVICE_SYSTEMD_SOCKET_H
#define GATEWAY_SERVICE_SYSTEMD_SOCKET_H

#include "common/descriptor.h"

#include <chrono>
#include <optional>
#include <string>
#include <string_view>

namespace gateway {

// Takes what systemd has put into the environment out of it, so that the venue's process and others
// can't speak for the service. Where nobody listens, nothing is sent.
class SystemdSocket {
  public:
    // Throws std::runtime_error where NOTIFY_SOCKET names no socket that can be had.
    SystemdSocket();

    bool is_there() const { return socket_.has_value(); }
    // Lines `KEY=VALUE`. A datagram that systemd does not take is lost: the next one says it again.
    void send(std::string_view lines) const;
    // After so long without WATCHDOG=1 systemd ends the service; nothing where it does not watch.
    std::optional<std::chrono::microseconds> watchdog() const { return watchdog_; }

  private:
    std::optional<Descriptor> socket_;
    std::string address_; // the bytes of a sockaddr_un
    std::optional<std::chrono::microseconds> watchdog_;
};

} // namespace gateway

#endif
