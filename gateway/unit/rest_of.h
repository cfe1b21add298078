// What comes to a socket.
#ifndef GATEWAY_TESTS_REST_OF_H
#define GATEWAY_TESTS_REST_OF_H

#include "common/descriptor.h"

#include <array>
#include <cstddef>
#include <string>

#include <sys/socket.h>

namespace gateway::tests {

// Up to where it is closed.
inline std::string rest_of(const Descriptor &socket) {
    std::string text;
    std::array<char, 65536> bytes{};
    for (ssize_t count = 0; (count = ::recv(socket.number(), bytes.data(), bytes.size(), 0)) > 0;) {
        text.append(bytes.data(), static_cast<std::size_t>(count));
    }
    return text;
}

} // namespace gateway::tests

#endif
