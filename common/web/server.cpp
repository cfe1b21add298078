#include "server.h"

#include "server_context.h"

#include <chrono>
#include <optional>
#include <stdexcept>

#include <boost/asio/ip/address.hpp>
#include <boost/asio/steady_timer.hpp>

namespace web {

namespace asio = boost::asio;
using asio::ip::tcp;

namespace {

asio::ssl::context tls_of(const Certificate &certificate) {
    asio::ssl::context tls(asio::ssl::context::tls_server);
    tls.set_options(asio::ssl::context::default_workarounds | asio::ssl::context::no_sslv2 |
                    asio::ssl::context::no_sslv3 | asio::ssl::context::no_tlsv1 |
                    asio::ssl::context::no_tlsv1_1 | SSL_OP_NO_RENEGOTIATION);
    // By the groups of numbers that TLS 1.3 has beside curves (ffdhe8192 above all) one small
    // message of whoever connects would take a processor for a fifth of a second.
    if (SSL_CTX_set1_groups_list(tls.native_handle(), "X25519:P-256:X448:P-521:P-384") != 1) {
        throw std::runtime_error("TLS has no curves");
    }
    boost::system::error_code fault;
    if (tls.use_certificate_chain_file(certificate.chain, fault)) {
        throw std::runtime_error(certificate.chain + ": " + fault.message());
    }
    if (tls.use_private_key_file(certificate.key, asio::ssl::context::pem, fault)) {
        throw std::runtime_error(certificate.key + ": " + fault.message());
    }
    return tls;
}

tcp::acceptor listening(asio::io_context &io, const ServerSettings &settings) {
    const tcp::endpoint place(asio::ip::make_address(settings.address), settings.port);
    try {
        return tcp::acceptor(io, place);
    } catch (const boost::system::system_error &fault) {
        throw std::runtime_error("can't listen on " + settings.address + ":" +
                                 std::to_string(settings.port) + ": " + fault.code().message());
    }
}

} // namespace

class Server::Listener : public std::enable_shared_from_this<Listener> {
  public:
    Listener(asio::io_context &io, const ServerSettings &settings, Site &site)
        : acceptor_(listening(io, settings)), pause_(io),
          slots_(std::make_shared<ConnectionSlots>(settings.limits.connections,
                                                   settings.limits.connections_per_address)),
          context_(std::make_shared<const ServerContext>(ServerContext{
              Names(settings, port()), settings.limits, settings.certificate.has_value(), site})) {
        if (settings.certificate) {
            tls_.emplace(tls_of(*settings.certificate));
        }
    }

    unsigned short port() const { return acceptor_.local_endpoint().port(); }
    std::string address() const { return context_->names.address(); }

    void accept() {
        acceptor_.async_accept(
            [self = shared_from_this()](boost::system::error_code fault, tcp::socket socket) {
                if (fault == asio::error::operation_aborted) {
                    return;
                }
                if (fault) { // such as no descriptor left
                    return self->accept_later();
                }
                self->serve(std::move(socket));
                self->accept();
            });
    }

    void stop() {
        boost::system::error_code ignored;
        acceptor_.close(ignored);
        pause_.cancel();
    }

  private:
    void accept_later() {
        pause_.expires_after(std::chrono::milliseconds(100));
        pause_.async_wait([self = shared_from_this()](boost::system::error_code fault) {
            if (!fault) {
                self->accept();
            }
        });
    }

    void serve(tcp::socket socket) {
        boost::system::error_code fault;
        const tcp::endpoint peer = socket.remote_endpoint(fault);
        if (fault) {
            return; // it is gone
        }
        std::optional<ConnectionSlots::Slot> slot = slots_->take(peer.address().to_string());
        if (!slot) {
            return;
        }
        // Two small messages in a row cost 40 ms otherwise.
        socket.set_option(tcp::no_delay(true), fault);
        if (tls_) {
            serve_tls(context_, std::move(socket), *tls_, std::move(*slot));
        } else {
            serve_plain(context_, std::move(socket), std::move(*slot));
        }
    }

    tcp::acceptor acceptor_;
    asio::steady_timer pause_;
    std::shared_ptr<ConnectionSlots> slots_;
    std::shared_ptr<const ServerContext> context_;
    std::optional<asio::ssl::context> tls_;
};

Server::Server(asio::io_context &io, const ServerSettings &settings, Site &site) {
    check(settings);
    listener_ = std::make_shared<Listener>(io, settings, site);
    listener_->accept();
}

Server::~Server() {
    listener_->stop();
}

std::string Server::address() const {
    return listener_->address();
}

unsigned short Server::port() const {
    return listener_->port();
}

} // namespace web
