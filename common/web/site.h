// What a program implements to be served: its answers, and who listens on its WebSockets. Every
// call comes from the one thread that runs the server's io_context.
#ifndef WEB_SITE_H
#define WEB_SITE_H

#include "exchange.h"

#include <memory>
#include <string>
#include <string_view>

namespace web {

// Why a WebSocket is closed, as RFC 6455 numbers it.
enum class CloseCode : unsigned short { going_away = 1001, policy = 1008, too_slow = 1013 };

// An open WebSocket.
class Socket {
  public:
    virtual ~Socket() = default;
    // Text frames leave in order. A peer that reads too slowly is disconnected.
    virtual void send(std::shared_ptr<const std::string> text) = 0;
    virtual void close(CloseCode code) = 0;
};

// Whoever has the other end of a WebSocket.
class SocketUser {
  public:
    virtual ~SocketUser() = default;
    virtual void opened(std::shared_ptr<Socket> socket) = 0;
    virtual void heard(std::string_view text) = 0;
    // The last call.
    virtual void closed() = 0;
};

class Site {
  public:
    virtual ~Site() = default;
    // The server has looked at Host, and at Origin where the request is a POST.
    virtual void answer(const Request &request, Reply reply) = 0;
    // The server has looked at Host and Origin. Null: the WebSocket is refused.
    virtual std::shared_ptr<SocketUser> take_socket(const Request &request) = 0;
};

} // namespace web

#endif
