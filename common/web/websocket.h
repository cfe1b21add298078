// A WebSocket on its connection.
#ifndef WEB_WEBSOCKET_H
#define WEB_WEBSOCKET_H

#include "server_context.h"

#include <deque>
#include <memory>
#include <string>
#include <utility>

#include <boost/beast/core.hpp>
#include <boost/beast/http.hpp>
#include <boost/beast/websocket.hpp>

namespace web {

template <typename Stream>
class WebSocket final : public Socket, public std::enable_shared_from_this<WebSocket<Stream>> {
  public:
    WebSocket(const Limits &limits, Stream stream, ConnectionSlots::Slot slot,
              std::shared_ptr<SocketUser> user)
        : limits_(limits), ws_(std::move(stream)), slot_(std::move(slot)), user_(std::move(user)) {
        ws_.set_option(boost::beast::websocket::stream_base::timeout{
            limits_.request_time, std::chrono::seconds(20), true});
        ws_.read_message_max(limits_.message_bytes);
        ws_.text(true);
    }

    template <typename Wire> void start(Wire request) {
        auto kept = std::make_shared<const Wire>(std::move(request));
        ws_.async_accept(*kept, [self = this->shared_from_this(), kept](Fault fault) {
            if (fault) {
                return self->user_->closed();
            }
            self->user_->opened(self);
            self->read();
        });
    }

    void send(std::shared_ptr<const std::string> text) override {
        if (is_closing_) {
            return;
        }
        waiting_bytes_ += text->size();
        waiting_.push_back(std::move(text));
        if (waiting_.size() > limits_.waiting_messages || waiting_bytes_ > limits_.waiting_bytes) {
            return cut(); // it does not read: it comes again, and is given all anew
        }
        if (waiting_.size() == 1) {
            write();
        }
    }

    void close(CloseCode code) override {
        if (is_closing_) {
            return;
        }
        is_closing_ = true;
        code_ = code;
        if (waiting_.empty()) {
            close_now();
        }
    }

  private:
    using Fault = boost::beast::error_code;

    void read() {
        ws_.async_read(buffer_, [self = this->shared_from_this()](Fault fault, std::size_t) {
            if (fault) {
                self->is_closing_ = true;
                return self->user_->closed();
            }
            const auto data = self->buffer_.data();
            if (!self->is_closing_ && self->ws_.got_text()) {
                self->user_->heard({static_cast<const char *>(data.data()), data.size()});
            }
            self->buffer_.consume(self->buffer_.size());
            self->read();
        });
    }

    void write() {
        ws_.async_write(boost::asio::buffer(*waiting_.front()),
                        [self = this->shared_from_this()](Fault fault, std::size_t) {
                            if (fault) {
                                return self->cut();
                            }
                            self->waiting_bytes_ -= self->waiting_.front()->size();
                            self->waiting_.pop_front();
                            if (!self->waiting_.empty()) {
                                self->write();
                            } else if (self->is_closing_) {
                                self->close_now();
                            }
                        });
    }

    void close_now() {
        ws_.async_close(static_cast<boost::beast::websocket::close_code>(code_),
                        [self = this->shared_from_this()](Fault) { self->cut(); });
    }

    // The read fails then, and the user is told.
    void cut() {
        is_closing_ = true;
        boost::beast::get_lowest_layer(ws_).close();
    }

    const Limits limits_;
    boost::beast::websocket::stream<Stream, false> ws_; // nothing is deflated
    ConnectionSlots::Slot slot_;
    std::shared_ptr<SocketUser> user_;
    boost::beast::flat_buffer buffer_;
    std::deque<std::shared_ptr<const std::string>> waiting_;
    std::size_t waiting_bytes_ = 0;
    bool is_closing_ = false;
    CloseCode code_ = CloseCode::going_away;
};

} // namespace web

#endif
