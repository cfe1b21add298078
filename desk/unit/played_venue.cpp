#include "played_venue.h"

#include "unit.h"

#include <doctest/doctest.h>

#include <algorithm>
#include <numeric>

#include <arpa/inet.h>
#include <netinet/in.h>
#include <poll.h>
#include <sys/socket.h>

namespace desk_tests {

namespace {

constexpr int patience = 60;             // seconds
constexpr std::chrono::seconds pause{3}; // in which it has to say something
constexpr const char *end_of_body = "\x01"
                                    "10=";
constexpr std::size_t after_body = 8; // bytes of the checksum's field and its SOH

bool is_of_session(const std::string &type) {
    return type.size() == 1 && std::string("01245A").find(type) != std::string::npos;
}

} // namespace

PlayedVenue::PlayedVenue() : listener_(::socket(AF_INET, SOCK_STREAM | SOCK_CLOEXEC, 0)) {
    sockaddr_in place{};
    place.sin_family = AF_INET;
    place.sin_addr.s_addr = htonl(INADDR_LOOPBACK);
    socklen_t size = sizeof place;
    auto *address = reinterpret_cast<sockaddr *>(&place);
    REQUIRE(::bind(listener_.number(), address, size) == 0);
    REQUIRE(::listen(listener_.number(), 1) == 0);
    REQUIRE(::getsockname(listener_.number(), address, &size) == 0);
    port_ = ntohs(place.sin_port);
}

desk::Message PlayedVenue::let_in() {
    const int before = heard_;
    const desk::Message logon = take_logon();
    write("A", "98=0|108=10|1137=9|");
    if (heard_ > before + 1) {
        write("2", "7=" + std::to_string(before + 1) + "|16=0|");
    }
    return logon;
}

desk::Message PlayedVenue::let_in_anew() {
    const desk::Message logon = take_logon();
    said_ = numbered_ = 0;
    heard_ = 1;
    write("A", "98=0|108=10|141=Y|1137=9|");
    return logon;
}

desk::Message PlayedVenue::take_logon() {
    std::optional<desk::Message> logon;
    while (!logon || has_ended()) {
        wait_for(listener_);
        line_ = gateway::Descriptor(::accept4(listener_.number(), nullptr, nullptr, SOCK_CLOEXEC));
        bytes_.clear();
        logon = next();
    }
    REQUIRE(logon->type() == "A");
    firm_ = logon->get(49);
    return *logon;
}

desk::Message PlayedVenue::hear() {
    for (;;) {
        desk::Message message = read();
        if (!is_of_session(message.type())) {
            return message;
        }
    }
}

void PlayedVenue::stay() {
    if (line_.number() >= 0 && spoke_ + pause < std::chrono::steady_clock::now()) {
        write("0", "");
    }
}

void PlayedVenue::wait_for(const gateway::Descriptor &one) {
    pollfd wanted{one.number(), POLLIN, 0};
    int seconds = 0;
    while (::poll(&wanted, 1, 1000) == 0) {
        REQUIRE(++seconds < patience);
        stay();
    }
}

void PlayedVenue::say(const std::string &type, const std::string &fields) {
    write(type, "1181=" + std::to_string(++numbered_) + "|" + fields);
}

desk::Message PlayedVenue::read() {
    const std::optional<desk::Message> message = next();
    REQUIRE(message);
    return *message;
}

bool PlayedVenue::has_ended() const {
    char byte = 0;
    return ::recv(line_.number(), &byte, 1, MSG_PEEK | MSG_DONTWAIT) == 0;
}

std::optional<desk::Message> PlayedVenue::next() {
    for (;;) {
        const std::size_t body = bytes_.find(end_of_body);
        if (body != std::string::npos && bytes_.size() >= body + after_body) {
            desk::Message message(bytes_.substr(0, body + after_body));
            bytes_.erase(0, body + after_body);
            heard_ = std::max(heard_, static_cast<int>(message.number(desk::tag::msg_seq_num)));
            return message;
        }
        wait_for(line_);
        char part[4096];
        const ssize_t size = ::recv(line_.number(), part, sizeof part, 0);
        if (size <= 0) {
            return std::nullopt;
        }
        bytes_.append(part, static_cast<std::size_t>(size));
    }
}

void PlayedVenue::write(const std::string &type, const std::string &fields) {
    const std::string body =
        fix("35=" + type + "|49=VENUE|56=" + firm_ + "|34=" + std::to_string(++said_) +
            "|52=" + desk::fix_text(desk::now()) + "|" + fields);
    std::string bytes = fix("8=FIXT.1.1|9=" + std::to_string(body.size()) + "|") + body;
    const unsigned sum =
        std::accumulate(bytes.begin(), bytes.end(), 0U, [](unsigned all, char one) {
            return all + static_cast<unsigned char>(one);
        });
    const std::string digits = std::to_string(1000 + sum % 256).substr(1);
    bytes += fix("10=" + digits + "|");
    spoke_ = std::chrono::steady_clock::now();
    REQUIRE(::send(line_.number(), bytes.data(), bytes.size(), MSG_NOSIGNAL) ==
            static_cast<ssize_t>(bytes.size()));
}

} // namespace desk_tests
