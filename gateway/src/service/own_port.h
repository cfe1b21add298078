// Whether a process listens at a port.
#ifndef GATEWAY_SERVICE_OWN_PORT_H
#define GATEWAY_SERVICE_OWN_PORT_H

#include <cstdint>
#include <optional>

namespace gateway {

// Nothing where this process may not see which files the other one has open.
std::optional<bool> listens_at(int process, std::uint16_t port);

} // namespace gateway

#endif
