// Compiles visit.h for connections over TLS.
#include <boost/beast/ssl.hpp>
#include <boost/beast/websocket/ssl.hpp>

#include "http_connection.h"

namespace web {

void serve_tls(std::shared_ptr<const ServerContext> context, boost::asio::ip::tcp::socket socket,
               boost::asio::ssl::context &tls, ConnectionSlots::Slot slot) {
    using Stream = boost::beast::ssl_stream<boost::beast::tcp_stream>;
    std::make_shared<HttpConnection<Stream>>(
        std::move(context), Stream(boost::beast::tcp_stream(std::move(socket)), tls),
        std::move(slot))
        ->start();
}

} // namespace web
