// One connection over a pair of sockets, with TLS or without. A test has its other side, and the
// host of the one session that it may have.
#ifndef GATEWAY_TESTS_ONE_CONNECTION_H
#define GATEWAY_TESTS_ONE_CONNECTION_H

#include "check.h"
#include "comes_true.h"
#include "identity.h"
#include "no_events.h"
#include "said_now.h"
#include "session/connection.h"
#include "session/sessions.h"

#include <array>
#include <atomic>
#include <chrono>
#include <cstdio>
#include <functional>
#include <memory>
#include <mutex>
#include <string>
#include <thread>

#include <fcntl.h>
#include <openssl/evp.h>
#include <openssl/pem.h>
#include <openssl/ssl.h>
#include <openssl/x509.h>
#include <sys/socket.h>

namespace gateway::tests {

constexpr auto longest_wait = std::chrono::seconds(60);

// A key, and a certificate that it has signed itself, in files.
inline void make_certificate(EngineSettings &settings, const std::filesystem::path &folder) {
    settings.certificate = folder / "own.pem";
    settings.key = folder / "own.key";
    const Owned<EVP_PKEY> key(EVP_PKEY_Q_keygen(nullptr, nullptr, "ED25519"), EVP_PKEY_free);
    const Owned<X509> own(X509_new(), X509_free);
    X509_set_version(own.get(), X509_VERSION_3);
    X509_gmtime_adj(X509_getm_notBefore(own.get()), 0);
    X509_gmtime_adj(X509_getm_notAfter(own.get()), 3600);
    X509_set_pubkey(own.get(), key.get());
    check(X509_sign(own.get(), key.get(), nullptr) > 0, "no signature");
    const std::unique_ptr<FILE, int (*)(FILE *)> first(
        std::fopen(settings.certificate.c_str(), "w"), std::fclose);
    const std::unique_ptr<FILE, int (*)(FILE *)> second(std::fopen(settings.key.c_str(), "w"),
                                                        std::fclose);
    check(PEM_write_X509(first.get(), own.get()) == 1 &&
              PEM_write_PrivateKey(second.get(), key.get(), nullptr, nullptr, 0, nullptr,
                                   nullptr) == 1,
          "no files");
}

// Two sockets that are connected; the first one does not block.
inline std::array<Descriptor, 2> make_pair() {
    std::array<int, 2> ends{};
    check(::socketpair(AF_UNIX, SOCK_STREAM | SOCK_CLOEXEC, 0, ends.data()) == 0, "no sockets");
    check(::fcntl(ends[0], F_SETFL, O_NONBLOCK) == 0, "no options");
    return {Descriptor(ends[0]), Descriptor(ends[1])};
}

// The other side of TLS. A firm's messages are those of F.
class Peer {
  public:
    explicit Peer(const Descriptor &socket)
        : context_(SSL_CTX_new(TLS_client_method()), SSL_CTX_free),
          tls_(SSL_new(context_.get()), SSL_free) {
        SSL_set_fd(tls_.get(), socket.number());
        check(SSL_connect(tls_.get()) == 1, "no handshake");
    }
    // Updates its keys, and asks the other side to do so too; or not. False where it is gone.
    bool update_keys(int kind) {
        return SSL_key_update(tls_.get(), kind) == 1 && SSL_do_handshake(tls_.get()) == 1;
    }
    bool say(const std::string &bytes) {
        return SSL_write(tls_.get(), bytes.data(), static_cast<int>(bytes.size())) > 0;
    }
    // Waits for what comes until these words are in it, with bars.
    void read_until(const std::string &words) {
        std::string came;
        std::array<char, 4096> bytes;
        while (came.find(words) == std::string::npos) {
            const int count = SSL_read(tls_.get(), bytes.data(), static_cast<int>(bytes.size()));
            check(count > 0, fmt::format("{} does not come, but {}", words, came));
            came += with_bars(std::string(bytes.data(), static_cast<std::size_t>(count)));
        }
    }

  private:
    Owned<SSL_CTX> context_;
    Owned<SSL> tls_;
};

// Takes all, and counts what was read of the firm.
class CountingHost final : public SessionHost {
  public:
    Refusal judge(const LogonFacts &) override { return Refusal::none; }
    std::uint32_t logon_accepted(const std::string &, const ConnectionFacts &) override {
        return 1;
    }
    void logon_refused(const std::string &, const ConnectionFacts &, const std::string &) override {
    }
    void connection_ended(const std::string &, std::uint32_t, const std::string &why) override {
        const std::lock_guard lock(mutex_);
        why_ = why;
    }
    void logged_on(const std::string &) override {}
    void logged_off(const std::string &) override {}
    std::uint64_t put(const std::string &, const SessionEvent &) override { return 1; }
    void wait_stored(std::uint64_t) override { commits(); }
    Taken take(const std::string &, const SessionInput &, const SessionEvent &) override {
        return {};
    }
    void all_received() override {}
    std::vector<KeptMessage> kept_messages(const std::string &, std::uint32_t,
                                           std::size_t) override {
        return {};
    }
    Time was_read(const std::string &, std::size_t count, std::size_t) override {
        messages += count;
        return std::chrono::steady_clock::now() + pause.load();
    }
    // Why its connection has ended.
    std::string why() {
        const std::lock_guard lock(mutex_);
        return why_;
    }

    std::atomic<std::size_t> messages{0};
    // What a commit takes that is waited for: set before anything is said.
    std::function<void()> commits = [] {};
    // By which the firm is above its rate, after each read.
    std::atomic<std::chrono::milliseconds> pause{std::chrono::milliseconds(0)};

  private:
    std::mutex mutex_;
    std::string why_;
};

// Keeps why strangers were turned away, and what they had said.
class Turned final : public NoEvents {
  public:
    void stranger(const ConnectionFacts &facts, const std::string &why,
                  const std::string &text) override {
        const std::lock_guard lock(mutex_);
        told_ += fmt::format("{} {}: {}\n", facts.address, why, text);
    }
    std::string told() {
        const std::lock_guard lock(mutex_);
        return told_;
    }

  private:
    std::mutex mutex_;
    std::string told_;
};

// The connection, of 192.0.2.1, and the other end of it.
struct OneConnection {
    // Without TLS where there is no server.
    OneConnection(const EngineSettings &given, const TlsServer *server)
        : settings(given), ends(make_pair()), own_end(ends[0].number()),
          connection(std::move(ends[0]), address + ":1", server,
                     StrangerSlot(strangers, strangers.take(address).slot), sessions, settings,
                     events) {}

    static SessionStart start_of(SessionHost &host) {
        SessionStart start;
        start.firm = "F";
        start.host = &host;
        return start;
    }
    const Descriptor &other() const { return ends[1]; }
    int connection_socket() const { return own_end; }
    // Whether it has ended before long.
    bool ends_soon() const {
        return comes_true([this] { return connection.has_ended(); });
    }
    // Waits until it has read so many messages of its firm, and no more.
    void wait_read(std::size_t messages) const {
        check(comes_true([&] { return host.messages >= messages; }), "its firm's are not read");
        same<std::size_t>(messages, host.messages, "what was read of the firm");
    }

    const std::string address = "192.0.2.1";
    const EngineSettings settings;
    Turned events;
    CountingHost host;
    const Sessions sessions{{start_of(host)}, events};
    Strangers strangers{1, 1};
    std::array<Descriptor, 2> ends;
    const int own_end;
    Connection connection;
};

// The Logon of F, as its first message.
inline std::string logon_now() {
    return said_now("A", 1, "98=0|108=30|553=F|554=x|1137=9|");
}

} // namespace gateway::tests

#endif
