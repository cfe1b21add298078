// One connection: its requests one after the other, or the WebSocket that it turns into.
#ifndef WEB_HTTP_CONNECTION_H
#define WEB_HTTP_CONNECTION_H

#include "cookies.h"
#include "server_context.h"
#include "websocket.h"

#include <memory>
#include <optional>
#include <string>
#include <utility>

#include <boost/asio/ssl/stream_base.hpp>
#include <boost/beast/core.hpp>
#include <boost/beast/http.hpp>
#include <boost/beast/websocket.hpp>

namespace web {

template <typename Stream>
class HttpConnection : public std::enable_shared_from_this<HttpConnection<Stream>> {
  public:
    HttpConnection(std::shared_ptr<const ServerContext> context, Stream stream,
                   ConnectionSlots::Slot slot)
        : context_(std::move(context)), stream_(std::move(stream)), slot_(std::move(slot)) {}

    void start() {
        wait();
        lowest().expires_after(context_->limits.request_time);
        if constexpr (has_tls) {
            stream_.async_handshake(boost::asio::ssl::stream_base::server,
                                    [self = this->shared_from_this()](Fault fault) {
                                        if (!fault) {
                                            self->read();
                                        }
                                    });
        } else {
            read();
        }
    }

  private:
    using Fault = boost::beast::error_code;
    using Wire = boost::beast::http::request<boost::beast::http::string_body>;
    static constexpr bool has_tls = !std::is_same_v<Stream, boost::beast::tcp_stream>;

    auto &lowest() { return boost::beast::get_lowest_layer(stream_); }

    // What waits for its peer makes room for who comes.
    void wait() {
        slot_.wait([weak = this->weak_from_this()] {
            if (const auto self = weak.lock()) {
                self->lowest().close();
            }
        });
    }

    void read() {
        wait();
        parser_.emplace();
        parser_->header_limit(static_cast<std::uint32_t>(context_->limits.header_bytes));
        parser_->body_limit(context_->limits.body_bytes);
        lowest().expires_after(context_->limits.request_time);
        boost::beast::http::async_read(
            stream_, buffer_, *parser_,
            [self = this->shared_from_this()](Fault fault, std::size_t) { self->took(fault); });
    }

    void took(Fault fault) {
        if (fault == boost::beast::http::error::body_limit) {
            return write(Response{413, "text/plain; charset=utf-8", "too long\n", {}}, false);
        }
        if (fault) {
            return close();
        }
        slot_.work();
        const Wire &wire = parser_->get();
        const std::string_view host = text(wire[boost::beast::http::field::host]);
        const std::string_view origin = text(wire[boost::beast::http::field::origin]);
        if (wire.count(boost::beast::http::field::host) > 1 || !context_->names.is_host(host)) {
            return write(Response{403, "text/plain; charset=utf-8", "another host\n", {}}, false);
        }
        const bool upgrades = boost::beast::websocket::is_upgrade(wire);
        const bool reads = wire.method() == boost::beast::http::verb::get && !upgrades;
        if (!reads && !context_->names.is_own_origin(origin, host)) {
            return write(Response{403, "text/plain; charset=utf-8", "another origin\n", {}}, false);
        }
        upgrades ? upgrade() : answer();
    }

    void upgrade() {
        std::shared_ptr<SocketUser> user = context_->site.take_socket(request());
        if (!user) {
            return write(Response{403, "text/plain; charset=utf-8", "not logged in\n", {}}, false);
        }
        lowest().expires_never();
        std::make_shared<WebSocket<Stream>>(context_->limits, std::move(stream_), std::move(slot_),
                                            std::move(user))
            ->start(parser_->release());
    }

    void answer() {
        lowest().expires_never(); // while the site thinks
        context_->site.answer(request(), [self = this->shared_from_this()](Response response) {
            self->write(std::move(response), self->parser_->get().keep_alive());
        });
    }

    Request request() const {
        const Wire &wire = parser_->get();
        Request request;
        request.method = wire.method() == boost::beast::http::verb::get    ? Method::get
                         : wire.method() == boost::beast::http::verb::post ? Method::post
                                                                           : Method::other;
        const std::string_view target = text(wire.target());
        request.path = target.substr(0, target.find('?'));
        request.body = wire.body();
        request.content_type = text(wire[boost::beast::http::field::content_type]);
        request.if_none_match = text(wire[boost::beast::http::field::if_none_match]);
        request.authorization = text(wire[boost::beast::http::field::authorization]);
        request.cookies = cookies_of(text(wire[boost::beast::http::field::cookie]));
        request.address = slot_.address();
        return request;
    }

    void write(Response response, bool keeps) {
        namespace http = boost::beast::http;
        response_ = {};
        response_.result(response.status);
        response_.version(11);
        response_.set(http::field::content_type, response.content_type);
        response_.set(http::field::cache_control, "no-store");
        set_closed_headers();
        for (const auto &[name, value] : response.headers) {
            response_.set(name, value);
        }
        response_.keep_alive(keeps);
        response_.body() = std::move(response.body);
        response_.prepare_payload();
        wait();
        lowest().expires_after(context_->limits.request_time);
        http::async_write(stream_, response_,
                          [self = this->shared_from_this(), keeps](Fault fault, std::size_t) {
                              !fault &&keeps ? self->read() : self->close();
                          });
    }

    // What a browser lets nobody but this site's own files do.
    void set_closed_headers() {
        response_.set("Content-Security-Policy",
                      "default-src 'none'; script-src 'self'; style-src 'self'; img-src 'self'; "
                      "connect-src 'self'; base-uri 'none'; form-action 'none'; frame-ancestors "
                      "'none'; require-trusted-types-for 'script'; trusted-types 'none'");
        response_.set("X-Content-Type-Options", "nosniff");
        response_.set("X-Frame-Options", "DENY");
        response_.set("Referrer-Policy", "no-referrer");
        response_.set("Cross-Origin-Resource-Policy", "same-origin");
        response_.set("Cross-Origin-Opener-Policy", "same-origin");
        if (has_tls) {
            response_.set("Strict-Transport-Security", "max-age=31536000");
        }
    }

    void close() {
        if constexpr (has_tls) {
            lowest().expires_after(std::chrono::seconds(2));
            stream_.async_shutdown([self = this->shared_from_this()](Fault) {});
        } else {
            Fault ignored;
            lowest().socket().shutdown(boost::asio::ip::tcp::socket::shutdown_send, ignored);
        }
    }

    static std::string_view text(boost::beast::string_view view) {
        return {view.data(), view.size()};
    }

    std::shared_ptr<const ServerContext> context_;
    Stream stream_;
    ConnectionSlots::Slot slot_;
    boost::beast::flat_buffer buffer_;
    std::optional<boost::beast::http::request_parser<boost::beast::http::string_body>> parser_;
    boost::beast::http::response<boost::beast::http::string_body> response_;
};

} // namespace web

#endif
