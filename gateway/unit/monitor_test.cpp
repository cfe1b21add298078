// What the gateway's port for its operator answers: pages, a condition, and nothing else.
#define DOCTEST_CONFIG_IMPLEMENT_WITH_MAIN
#include <doctest/doctest.h>

#include "check.h"
#include "common/descriptor.h"
#include "common/web/server.h"
#include "service/monitor.h"

#include <cstdio>
#include <filesystem>
#include <memory>
#include <mutex>
#include <optional>
#include <stdexcept>
#include <string>

#include <boost/asio/io_context.hpp>
#include <openssl/evp.h>
#include <openssl/pem.h>
#include <openssl/x509.h>

#include <arpa/inet.h>
#include <netinet/in.h>
#include <sys/socket.h>

namespace gateway::tests {

using namespace std::chrono_literals;

sockaddr_in place_of(unsigned short port) {
    sockaddr_in place{};
    place.sin_family = AF_INET;
    place.sin_addr.s_addr = htonl(INADDR_LOOPBACK);
    place.sin_port = htons(port);
    return place;
}

// One that was free a moment ago.
unsigned short free_port() {
    const Descriptor socket(::socket(AF_INET, SOCK_STREAM | SOCK_CLOEXEC, 0));
    sockaddr_in place = place_of(0);
    socklen_t size = sizeof place;
    check(::bind(socket.number(), reinterpret_cast<sockaddr *>(&place), size) == 0 &&
              ::getsockname(socket.number(), reinterpret_cast<sockaddr *>(&place), &size) == 0,
          "a port");
    return ntohs(place.sin_port);
}

struct Watched {
    mutable std::mutex mutex;
    Condition condition{Phase::ready, "20261130", {}};
    unsigned short port = 0;
    std::unique_ptr<Monitor> monitor;

    Watched() {
        for (int tries = 0; !monitor; ++tries) {
            port = free_port();
            try {
                monitor = std::make_unique<Monitor>(port, MonitorSources{[this] { return now(); },
                                                                         [] { return "a 1\n"; },
                                                                         [] { return "<p>"; }});
            } catch (const std::runtime_error &) {
                check(tries < 100, "there is no port");
            }
        }
    }

    Condition now() const {
        const std::lock_guard lock(mutex);
        return condition;
    }
    void is(Phase phase, std::optional<Liveness::Silent> silent) {
        const std::lock_guard lock(mutex);
        condition.phase = phase;
        condition.silent = std::move(silent);
    }

    // All bytes of an answer, with the line feeds alone.
    std::string asked(const std::string &method, const std::string &path,
                      const std::string &body = "") const {
        const Descriptor socket(::socket(AF_INET, SOCK_STREAM | SOCK_CLOEXEC, 0));
        sockaddr_in place = place_of(port);
        check(::connect(socket.number(), reinterpret_cast<sockaddr *>(&place), sizeof place) == 0,
              "the port is closed");
        const std::string words = fmt::format("{} {} HTTP/1.1\r\nHost: 127.0.0.1:{}\r\nConnection: "
                                              "close\r\nContent-Length: {}\r\n\r\n{}",
                                              method, path, port, body.size(), body);
        check(::send(socket.number(), words.data(), words.size(), 0) ==
                  static_cast<ssize_t>(words.size()),
              "nothing is asked");
        std::string answer;
        char bytes[4096];
        for (ssize_t count = 0; (count = ::recv(socket.number(), bytes, sizeof bytes, 0)) > 0;) {
            answer.append(bytes, static_cast<std::size_t>(count));
        }
        std::erase(answer, '\r');
        return answer;
    }
};

// The status, the type and the body.
std::string short_of(const std::string &answer) {
    const std::size_t type = answer.find("\nContent-Type: "), body = answer.find("\n\n");
    check(answer.size() > 12 && type != std::string::npos && body != std::string::npos, answer);
    const std::string words = answer.substr(type + 15, answer.find('\n', type + 1) - type - 15);
    return answer.substr(9, 3) + " " + words + " " + answer.substr(body + 2);
}

TEST_CASE("pages and numbers") {
    const Watched watched;
    CHECK(short_of(watched.asked("GET", "/metrics")) ==
          "200 text/plain; version=0.0.4; charset=utf-8 a 1\n");
    CHECK(short_of(watched.asked("GET", "/")) == "200 text/html; charset=utf-8 <p>");
    CHECK(short_of(watched.asked("GET", "/none")) ==
          "404 text/plain; charset=utf-8 nothing is here\n");
    CHECK(short_of(watched.asked("GET", "/page.js")).starts_with("200 text/javascript"));
    // It takes nothing: how much of it is read has an end.
    CHECK(watched.asked("POST", "/none", std::string(1024, 'x')).substr(9, 3) != "413");
    CHECK(watched.asked("POST", "/none", std::string(1025, 'x')).substr(9, 3) == "413");
}

TEST_CASE("a condition is a line, and a status") {
    Watched watched;
    const auto health = [&] { return short_of(watched.asked("GET", "/health")); };
    const auto ready = [&] { return short_of(watched.asked("GET", "/ready")); };
    CHECK(health() == "200 text/plain; charset=utf-8 ready: 20261130\n");
    CHECK(ready() == "200 text/plain; charset=utf-8 ready: 20261130\n");
    watched.is(Phase::stands_by, std::nullopt);
    CHECK(health() == "200 text/plain; charset=utf-8 stands by: 20261130\n");
    CHECK(ready() == "503 text/plain; charset=utf-8 stands by: 20261130\n");
    watched.is(Phase::ready, Liveness::Silent{"the log", 20s});
    const std::string words = "the log has not worked for 20 s (ready: 20261130)\n";
    CHECK(health() == "503 text/plain; charset=utf-8 " + words);
    CHECK(ready() == "503 text/plain; charset=utf-8 " + words);
}

TEST_CASE("a fault of what is asked is told") {
    Watched watched;
    watched.monitor.reset();
    const unsigned short port = watched.port;
    CHECK_NOTHROW(Monitor(0, {}));
    const Monitor faulty(port,
                         MonitorSources{[] { return Condition(); },
                                        []() -> std::string { throw std::runtime_error("no"); },
                                        [] { return ""; }});
    watched.port = port;
    CHECK(short_of(watched.asked("GET", "/metrics")) == "500 text/plain; charset=utf-8 no\n");
    const std::string taken = fmt::format("metrics at 127.0.0.1:{}: can't listen on 127.0.0.1:{}: "
                                          "Address already in use",
                                          port, port);
    std::string told;
    try {
        const Monitor second(port, {});
    } catch (const std::runtime_error &fault) {
        told = fault.what();
    }
    CHECK(told.starts_with(taken));
}

// A key and a certificate of it, in files of a folder.
web::Certificate certificate_in(const std::filesystem::path &folder, const std::string &name) {
    const web::Certificate made{folder / (name + ".pem"), folder / (name + ".key")};
    const std::unique_ptr<EVP_PKEY, decltype(&EVP_PKEY_free)> key(EVP_EC_gen("P-256"),
                                                                  EVP_PKEY_free);
    const std::unique_ptr<X509, decltype(&X509_free)> own(X509_new(), X509_free);
    X509_set_version(own.get(), 2);
    X509_gmtime_adj(X509_getm_notBefore(own.get()), 0);
    X509_gmtime_adj(X509_getm_notAfter(own.get()), 3600);
    X509_set_pubkey(own.get(), key.get());
    check(X509_sign(own.get(), key.get(), EVP_sha256()) != 0, "a certificate");
    const auto put = [](const std::string &path, const auto &write) {
        const std::unique_ptr<std::FILE, decltype(&std::fclose)> file(std::fopen(path.c_str(), "w"),
                                                                      std::fclose);
        check(file && write(file.get()) == 1, path);
    };
    put(made.chain, [&](std::FILE *file) { return PEM_write_X509(file, own.get()); });
    put(made.key, [&](std::FILE *file) {
        return PEM_write_PrivateKey(file, key.get(), nullptr, nullptr, 0, nullptr, nullptr);
    });
    return made;
}

class Nothing : public web::Site {
  public:
    void answer(const web::Request &, web::Reply) override {}
    std::shared_ptr<web::SocketUser> take_socket(const web::Request &) override { return nullptr; }
};

TEST_CASE("a site without its key, or with another's, does not begin") {
    const Scratch folder("site");
    const web::Certificate own = certificate_in(folder.path(), "own");
    const web::Certificate other = certificate_in(folder.path(), "other");
    boost::asio::io_context io;
    Nothing nothing;
    const auto fault_with = [&](const std::string &chain, const std::string &key) {
        web::ServerSettings settings;
        settings.certificate = web::Certificate{chain, key};
        try {
            const web::Server server(io, settings, nothing);
            return server.address().substr(0, 8);
        } catch (const std::runtime_error &fault) {
            return std::string(fault.what());
        }
    };
    const std::string none = folder.path() / "none";
    CHECK(fault_with(own.chain, own.key) == "https://");
    CHECK(fault_with(none, own.key).starts_with(none + ": "));
    CHECK(fault_with(own.chain, none).starts_with(none + ": "));
    CHECK(fault_with(own.chain, other.key).starts_with(other.key + ": "));
}

} // namespace gateway::tests
