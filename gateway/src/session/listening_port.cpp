#include "session/listening_port.h"

#include "session/socket_address.h"

#include <cerrno>
#include <cstring>
#include <stdexcept>
#include <utility>

#include <sys/socket.h>

namespace gateway {

namespace {

// So many connections may wait to be taken.
constexpr int backlog = 1024;

Descriptor listen_at(const EngineSettings &settings) {
    const sockaddr_in at = address_of(settings);
    Descriptor socket(::socket(AF_INET, SOCK_STREAM | SOCK_CLOEXEC | SOCK_NONBLOCK, 0));
    const int yes = 1;
    if (socket.number() < 0 ||
        ::setsockopt(socket.number(), SOL_SOCKET, SO_REUSEADDR, &yes, sizeof yes) != 0 ||
        ::bind(socket.number(), reinterpret_cast<const sockaddr *>(&at), sizeof at) != 0 ||
        ::listen(socket.number(), backlog) != 0) {
        throw std::runtime_error(where(settings) + ": " + std::strerror(errno));
    }
    return socket;
}

} // namespace

ListeningPort::ListeningPort(const EngineSettings &settings)
    : socket_(listen_at(settings)), address_(settings.address), port_(settings.port) {}

bool ListeningPort::is_at(const EngineSettings &settings) const {
    return is_open() && address_ == settings.address && port_ == settings.port;
}

} // namespace gateway
