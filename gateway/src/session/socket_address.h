// Turns the address of an engine into the system's form.
#ifndef GATEWAY_SESSION_SOCKET_ADDRESS_H
#define GATEWAY_SESSION_SOCKET_ADDRESS_H

#include "session/engine_settings.h"

#include <stdexcept>
#include <string>

#include <arpa/inet.h>
#include <netinet/in.h>

namespace gateway {

inline std::string where(const EngineSettings &settings) {
    return settings.address + ":" + std::to_string(settings.port);
}

// Throws std::runtime_error where it is no address of IPv4.
inline sockaddr_in address_of(const EngineSettings &settings) {
    sockaddr_in address{};
    address.sin_family = AF_INET;
    address.sin_port = htons(settings.port);
    if (::inet_pton(AF_INET, settings.address.c_str(), &address.sin_addr) != 1) {
        throw std::runtime_error(where(settings) + ": no address of IPv4");
    }
    return address;
}

} // namespace gateway

#endif
