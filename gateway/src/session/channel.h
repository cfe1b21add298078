// A TCP connection, with TLS or without, that never blocks.
#ifndef GATEWAY_SESSION_CHANNEL_H
#define GATEWAY_SESSION_CHANNEL_H

#include "common/descriptor.h"
#include "session/engine_settings.h"

#include <cstddef>
#include <memory>
#include <string>

struct ssl_ctx_st;
struct ssl_st;

namespace gateway {

// What a server shows and asks for. Throws std::runtime_error where a file can't be used.
class TlsServer {
  public:
    explicit TlsServer(const EngineSettings &settings);
    ~TlsServer();
    TlsServer(const TlsServer &) = delete;
    TlsServer &operator=(const TlsServer &) = delete;

    ssl_ctx_st *context() const { return context_.get(); }
    bool asks_for_certificates() const { return asks_; }

  private:
    struct Free {
        void operator()(ssl_ctx_st *context) const;
    };
    void ask_for_certificates(const EngineSettings &settings);

    std::unique_ptr<ssl_ctx_st, Free> context_;
    const bool asks_;
};

// Null for plain TCP.
std::shared_ptr<const TlsServer> tls_of(const EngineSettings &settings);

class Channel {
  public:
    // The socket does not block. server is null for plain TCP.
    Channel(Descriptor socket, const TlsServer *server);
    ~Channel();
    Channel(const Channel &) = delete;
    Channel &operator=(const Channel &) = delete;

    enum class Progress { done, empty, wants_read, wants_write, ended };

    // One step of TLS's handshake; `done` where there is none.
    Progress shake_hands();
    // `done` with at least one byte. `empty` where a record of TLS was read in which the peer says
    // nothing, as one that updates its keys: `count` is the record's length, and there may be more.
    Progress read(char *bytes, std::size_t room, std::size_t &count);
    // Whether bytes came that read() has not given yet and the socket does not show any more.
    bool holds_more() const;
    Progress write(const char *bytes, std::size_t size, std::size_t &count);
    // Writes what the socket takes at once, and returns how much that is; nothing where there is
    // TLS. Any thread may call it, one at a time, while no other writes.
    std::size_t write_at_once(const char *bytes, std::size_t size) const;
    // No more is written: the peer sees that this side has said all.
    void end_writing();
    // Both directions end. Any thread may call it.
    void shut();

    int number() const { return socket_.number(); }
    // Why it ended, as far as it is known.
    const std::string &fault() const { return fault_; }
    // The common name of the client's certificate, empty without one and until it has proved that
    // it has the key.
    std::string common_name() const;
    // Whether the client's certificate would be taken by this server, now.
    bool is_taken_by(const TlsServer &server) const;

  private:
    Progress read_record(char *bytes, std::size_t room, std::size_t &count);
    Progress progress_of(int result);
    Progress ended(const std::string &fault);

    struct Free {
        void operator()(ssl_st *connection) const;
    };

    Descriptor socket_;
    std::unique_ptr<ssl_st, Free> tls_;
    std::string fault_;
};

} // namespace gateway

#endif
