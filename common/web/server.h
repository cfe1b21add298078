// Serves a site by HTTP/1.1 and WebSocket, over TLS if its settings have a certificate. It checks
// Host and Origin itself, sets the headers that keep a page closed to other sites, and limits
// everything that a peer may send or leave unread.
#ifndef WEB_SERVER_H
#define WEB_SERVER_H

#include "server_settings.h"
#include "site.h"

#include <memory>
#include <string>

#include <boost/asio/io_context.hpp>

namespace web {

class Server {
  public:
    // Listens from now on; the site has to outlive the io_context's run. Throws std::runtime_error
    // with what is wrong with the settings.
    Server(boost::asio::io_context &io, const ServerSettings &settings, Site &site);
    ~Server();
    Server(const Server &) = delete;
    Server &operator=(const Server &) = delete;

    // To be opened in a browser.
    std::string address() const;
    unsigned short port() const;

  private:
    class Listener;
    std::shared_ptr<Listener> listener_;
};

} // namespace web

#endif
