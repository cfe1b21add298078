// What all connections of a server share.
#ifndef WEB_SERVER_CONTEXT_H
#define WEB_SERVER_CONTEXT_H

#include "connection_slots.h"
#include "server_settings.h"
#include "site.h"

#include <memory>

#include <boost/asio/ip/tcp.hpp>
#include <boost/asio/ssl/context.hpp>

namespace web {

struct ServerContext {
    Names names;
    Limits limits;
    bool has_tls;
    Site &site;
};

// Serves one connection, to its end.
void serve_plain(std::shared_ptr<const ServerContext> context, boost::asio::ip::tcp::socket socket,
                 ConnectionSlots::Slot slot);
void serve_tls(std::shared_ptr<const ServerContext> context, boost::asio::ip::tcp::socket socket,
               boost::asio::ssl::context &tls, ConnectionSlots::Slot slot);

} // namespace web

#endif
