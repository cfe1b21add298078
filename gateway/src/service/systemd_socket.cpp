#include "service/systemd_socket.h"

#include <cerrno>
#include <charconv>
#include <cstddef>
#include <cstdlib>
#include <cstring>
#include <stdexcept>
#include <system_error>

#include <fmt/format.h>
#include <sys/socket.h>
#include <sys/un.h>
#include <unistd.h>

namespace gateway {

namespace {

// What the variable says, which is not there any more.
std::string take(const char *name) {
    const char *value = std::getenv(name);
    std::string text = value == nullptr ? "" : value;
    ::unsetenv(name);
    return text;
}

// A path, or with an @ in front a name in Linux' abstract space.
std::string address_of(std::string name) {
    sockaddr_un address{};
    if ((name.front() != '/' && name.front() != '@') || name.size() >= sizeof address.sun_path) {
        throw std::runtime_error(fmt::format("NOTIFY_SOCKET={}: no address of a socket", name));
    }
    if (name.front() == '@') {
        name.front() = '\0';
    }
    address.sun_family = AF_UNIX;
    std::memcpy(address.sun_path, name.data(), name.size());
    const std::size_t size = offsetof(sockaddr_un, sun_path) + name.size();
    return {reinterpret_cast<const char *>(&address), size};
}

std::optional<std::chrono::microseconds> watchdog_of(const std::string &microseconds,
                                                     const std::string &process) {
    if (!process.empty() && process != std::to_string(::getpid())) {
        return std::nullopt;
    }
    std::int64_t value = 0;
    const char *end = microseconds.data() + microseconds.size();
    const auto read = std::from_chars(microseconds.data(), end, value);
    if (read.ec != std::errc() || read.ptr != end || value <= 0) {
        return std::nullopt;
    }
    return std::chrono::microseconds(value);
}

} // namespace

SystemdSocket::SystemdSocket() {
    const std::string name = take("NOTIFY_SOCKET");
    const std::string microseconds = take("WATCHDOG_USEC");
    const std::string process = take("WATCHDOG_PID");
    if (name.empty()) {
        return;
    }
    address_ = address_of(name);
    watchdog_ = watchdog_of(microseconds, process);
    socket_.emplace(::socket(AF_UNIX, SOCK_DGRAM | SOCK_CLOEXEC, 0));
    if (socket_->number() < 0) {
        throw std::runtime_error(
            fmt::format("NOTIFY_SOCKET: {}", std::system_category().message(errno)));
    }
}

void SystemdSocket::send(std::string_view lines) const {
    if (socket_) {
        ::sendto(socket_->number(), lines.data(), lines.size(), MSG_NOSIGNAL | MSG_DONTWAIT,
                 reinterpret_cast<const sockaddr *>(address_.data()),
                 static_cast<socklen_t>(address_.size()));
    }
}

} // namespace gateway
