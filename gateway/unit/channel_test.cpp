// TLS: which files it takes, who is let in by a certificate, and by which protocols.
#define DOCTEST_CONFIG_IMPLEMENT_WITH_MAIN
#include <doctest/doctest.h>

#include "check.h"
#include "identity.h"
#include "no_events.h"
#include "one_connection.h"
#include "session/channel.h"
#include "session/engine.h"

#include <cstdio>
#include <filesystem>
#include <functional>
#include <future>
#include <memory>
#include <stdexcept>
#include <string>
#include <utility>
#include <vector>

#include <fmt/format.h>
#include <openssl/evp.h>
#include <openssl/pem.h>
#include <openssl/ssl.h>
#include <openssl/x509.h>
#include <openssl/x509v3.h>
#include <poll.h>
#include <sys/stat.h>

namespace gateway::tests {

namespace fs = std::filesystem;

// A venue's own files, and those of an authority that signs firms' certificates.
struct Files {
    const Scratch folder{"channel"};
    const Identity venue{{"venue"}, 1};
    const Identity authority{{"authority"}, 2};
    const Identity stranger{{"another authority"}, 3};
    const Identity firm{{"DLR1"}, 7, &authority};
    EngineSettings settings;

    Files() {
        settings.certificate = venue.certificate(path("venue.pem"));
        settings.key = venue.key(path("venue.key"));
    }
    std::string path(const std::string &name) const { return folder.path() / name; }
    // Of those who ask for a certificate that this one has signed.
    EngineSettings asking(const Identity &of) const {
        EngineSettings asks = settings;
        asks.authorities = of.certificate(path("authorities.pem"));
        asks.client_certificates = true;
        return asks;
    }
};

using Change = std::function<void(SSL_CTX *)>;

// A connection of a firm after its handshake, whichever way that went.
class Met {
  public:
    Met(const TlsServer &server, const Change &change) : Met(server, make_pair(), change) {}

    bool is_let_in = false;
    std::string name_before;     // that is known before the end of the handshake
    bool may_be_resumed = false; // by what the firm has of it
    std::unique_ptr<Channel> channel;

  private:
    Met(const TlsServer &server, std::array<Descriptor, 2> ends, const Change &change)
        : other_(std::move(ends[1])), context_(SSL_CTX_new(TLS_client_method()), SSL_CTX_free) {
        channel = std::make_unique<Channel>(std::move(ends[0]), &server);
        name_before = channel->common_name();
        change(context_.get());
        tls_.reset(SSL_new(context_.get()));
        SSL_set_fd(tls_.get(), other_.number());
        auto firm = std::async(std::launch::async, [this] { return SSL_connect(tls_.get()) == 1; });
        Channel::Progress progress = channel->shake_hands();
        while (progress == Channel::Progress::wants_read ||
               progress == Channel::Progress::wants_write) {
            pollfd some{channel->number(), POLLIN, 0};
            REQUIRE(::poll(&some, 1, 60'000) == 1);
            progress = channel->shake_hands();
        }
        is_let_in = progress == Channel::Progress::done;
        if (!is_let_in) {
            channel->shut();
        }
        const bool has_shaken = firm.get();
        is_let_in = is_let_in && has_shaken;
        if (is_let_in) {
            may_be_resumed = SSL_SESSION_is_resumable(SSL_get0_session(tls_.get())) == 1;
        }
    }

    Descriptor other_;
    Owned<SSL_CTX> context_;
    Owned<SSL> tls_{nullptr, SSL_free};
};

void nothing(SSL_CTX *) {}

TEST_CASE("files that TLS does not take") {
    const Files files;
    const auto fault = [](const EngineSettings &settings) {
        try {
            const TlsServer server(settings);
        } catch (const std::runtime_error &told) {
            return std::string(told.what());
        }
        return std::string();
    };
    CHECK(fault(files.settings) == "");
    CHECK(tls_of(files.settings) != nullptr);
    CHECK(tls_of(EngineSettings()) == nullptr);
    const auto names = [&](const EngineSettings &settings, const std::string &file) {
        const std::string told = fault(settings);
        CHECK_MESSAGE(told.starts_with(file + ": "), told);
        CHECK(told.size() > file.size() + 2);
    };
    EngineSettings other = files.settings;
    names((other.certificate = files.path("none"), other), files.path("none"));
    other = files.settings;
    names((other.key = files.path("none"), other), files.path("none"));
    names((other.key = files.firm.key(files.path("firm.key")), other), files.path("firm.key"));
    const std::string pipe = files.path("pipe");
    REQUIRE(::mkfifo(pipe.c_str(), 0600) == 0);
    for (const auto member : {&EngineSettings::certificate, &EngineSettings::key,
                              &EngineSettings::authorities, &EngineSettings::revoked}) {
        other = files.settings;
        other.*member = pipe;
        CHECK(fault(other) == pipe + ": is no file");
    }
    other = files.asking(files.authority);
    CHECK(fault(other) == "");
    names((other.revoked = files.path("none"), other), files.path("none"));
    other = files.asking(files.authority);
    names((other.authorities = files.path("none"), other), files.path("none"));
    other.client_certificates = false; // then it is not read
    CHECK(fault(other) == "");
}

TEST_CASE("a venue that asks for no certificate") {
    const Files files;
    const TlsServer server(files.settings);
    CHECK_FALSE(server.asks_for_certificates());
    const Met met(server, nothing);
    CHECK(met.is_let_in);
    CHECK(met.channel->common_name() == "");
    const TlsServer asks(files.asking(files.authority));
    CHECK(met.channel->is_taken_by(server));
    CHECK_FALSE(met.channel->is_taken_by(asks)); // it has shown none
}

TEST_CASE("who is let in by a certificate") {
    const Files files;
    const TlsServer server(files.asking(files.authority));
    CHECK(server.asks_for_certificates());
    CHECK_FALSE(Met(server, nothing).is_let_in);
    const Met firm(server, [&](SSL_CTX *context) { files.firm.use_in(context); });
    CHECK(firm.is_let_in);
    CHECK(firm.name_before == "");
    CHECK(firm.channel->common_name() == "DLR1");
    const Identity of_another({"DLR1"}, 7, &files.stranger);
    CHECK_FALSE(Met(server, [&](SSL_CTX *context) { of_another.use_in(context); }).is_let_in);
    const Identity twice({"DLR1", "DLR2"}, 8, &files.authority);
    const Met named(server, [&](SSL_CTX *context) { twice.use_in(context); });
    CHECK(named.is_let_in);
    CHECK(named.channel->common_name() == "");
    const Identity nobody({}, 9, &files.authority);
    const Met unnamed(server, [&](SSL_CTX *context) { nobody.use_in(context); });
    CHECK(unnamed.is_let_in);
    CHECK(unnamed.channel->common_name() == "");
}

// At its handshake, and later where the files are read again.
TEST_CASE("a certificate that was taken back") {
    const Files files;
    EngineSettings settings = files.asking(files.authority);
    const TlsServer before(settings);
    const Met met(before, [&](SSL_CTX *context) { files.firm.use_in(context); });
    REQUIRE(met.is_let_in);
    CHECK(met.channel->is_taken_by(before));
    settings.revoked = files.authority.revoked(files.path("revoked.pem"), 8);
    CHECK(met.channel->is_taken_by(TlsServer(settings)));
    settings.revoked = files.authority.revoked(files.path("revoked.pem"), 7);
    const TlsServer after(settings);
    CHECK_FALSE(met.channel->is_taken_by(after));
    CHECK_FALSE(Met(after, [&](SSL_CTX *context) { files.firm.use_in(context); }).is_let_in);
    CHECK_FALSE(met.channel->is_taken_by(TlsServer(files.asking(files.stranger))));
    CHECK(met.channel->is_taken_by(TlsServer(files.settings))); // it asks for none
}

// None by which somebody who gets the key reads what was said before, or by which a small message
// takes a processor for long; and none is resumed.
TEST_CASE("protocols") {
    const Files files;
    const TlsServer server(files.settings);
    struct Case {
        const char *name;
        int version;
        const char *ciphers; // of TLS 1.2
        const char *groups;
        bool is_let_in;
    };
    constexpr const char *usual = "ECDHE-ECDSA-AES128-GCM-SHA256";
    for (const Case &each : {
             Case{"TLS 1.3", TLS1_3_VERSION, usual, "X25519", true},
             Case{"TLS 1.2", TLS1_2_VERSION, usual, "X25519:P-256", true},
             Case{"TLS 1.1", TLS1_1_VERSION, "ALL", "X25519:P-256", false},
             Case{"CHACHA20", TLS1_2_VERSION, "ECDHE-ECDSA-CHACHA20-POLY1305", "P-256", true},
             Case{"CBC", TLS1_2_VERSION, "ECDHE-ECDSA-AES128-SHA256", "X25519:P-256", false},
             Case{"X448", TLS1_3_VERSION, usual, "X448", true},
             Case{"P-384", TLS1_3_VERSION, usual, "P-384", true},
             Case{"P-521", TLS1_3_VERSION, usual, "P-521", true},
             Case{"ffdhe2048", TLS1_3_VERSION, usual, "ffdhe2048", false},
             Case{"ffdhe8192", TLS1_3_VERSION, usual, "ffdhe8192", false},
         }) {
        const Met met(server, [&](SSL_CTX *context) {
            SSL_CTX_set_security_level(context, 0);
            REQUIRE(SSL_CTX_set_min_proto_version(context, each.version) == 1);
            REQUIRE(SSL_CTX_set_max_proto_version(context, each.version) == 1);
            REQUIRE(SSL_CTX_set_cipher_list(context, each.ciphers) == 1);
            REQUIRE(SSL_CTX_set1_groups_list(context, each.groups) == 1);
        });
        CHECK_MESSAGE(met.is_let_in == each.is_let_in, std::string(each.name));
        CHECK_FALSE_MESSAGE(met.may_be_resumed, std::string(each.name));
    }
}

TEST_CASE("TLS neither begins nor ends while an engine runs") {
    const Files files;
    NoEvents events;
    const EngineSettings plain;
    Engine with(files.settings, {}, events);
    Engine without(plain, {}, events);
    CHECK_NOTHROW(with.renew(files.settings));
    CHECK_NOTHROW(without.renew(plain));
    const char *const fault = "[tls] can't begin or end while the gateway runs";
    CHECK_THROWS_WITH(with.renew(plain), fault);
    CHECK_THROWS_WITH(without.renew(files.settings), fault);
}

TEST_CASE("what is read and written without TLS") {
    auto ends = make_pair();
    Channel channel(std::move(ends[0]), nullptr);
    CHECK(channel.shake_hands() == Channel::Progress::done);
    CHECK(channel.common_name() == "");
    CHECK_FALSE(channel.holds_more());
    std::array<char, 8> bytes{};
    std::size_t count = 0;
    CHECK(channel.read(bytes.data(), bytes.size(), count) == Channel::Progress::wants_read);
    REQUIRE(::send(ends[1].number(), "abc", 3, 0) == 3);
    CHECK(channel.read(bytes.data(), bytes.size(), count) == Channel::Progress::done);
    CHECK(std::string(bytes.data(), count) == "abc");
    CHECK(channel.write("xyz", 3, count) == Channel::Progress::done);
    CHECK(count == 3);
    CHECK(channel.write_at_once("123", 3) == 3);
    CHECK(::recv(ends[1].number(), bytes.data(), bytes.size(), 0) == 6);
    const std::string much(std::size_t{1} << 24, 'x');
    CHECK(channel.write(much.data(), much.size(), count) == Channel::Progress::done);
    CHECK(count < much.size());
    CHECK(channel.write(much.data(), much.size(), count) == Channel::Progress::wants_write);
    CHECK(channel.write_at_once("x", 1) == 0);
    ends[1].close();
    CHECK(channel.write("x", 1, count) == Channel::Progress::ended);
    CHECK(channel.fault() == "Broken pipe");
    auto others = make_pair();
    Channel closed(std::move(others[0]), nullptr);
    others[1].close();
    CHECK(closed.read(bytes.data(), bytes.size(), count) == Channel::Progress::ended);
    CHECK(closed.fault() == "the peer closed");
}

} // namespace gateway::tests
