// Compiles visit.h for connections without TLS.
#include "http_connection.h"

namespace web {

void serve_plain(std::shared_ptr<const ServerContext> context, boost::asio::ip::tcp::socket socket,
                 ConnectionSlots::Slot slot) {
    std::make_shared<HttpConnection<boost::beast::tcp_stream>>(
        std::move(context), boost::beast::tcp_stream(std::move(socket)), std::move(slot))
        ->start();
}

} // namespace web
