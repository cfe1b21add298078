#include "server_settings.h"

#include <stdexcept>

#include <boost/asio/ip/address.hpp>

namespace web {

namespace {

bool is_loopback(const std::string &address) {
    boost::system::error_code fault;
    const auto own = boost::asio::ip::make_address(address, fault);
    if (fault) {
        throw std::runtime_error("'" + address + "' is no address to listen on");
    }
    return own.is_loopback();
}

// Browsers leave the usual port out.
std::string host_of(const std::string &name, unsigned short port, bool has_tls) {
    const bool is_usual = port == (has_tls ? 443 : 80);
    return is_usual ? name : name + ":" + std::to_string(port);
}

} // namespace

void check(const ServerSettings &settings) {
    if (is_loopback(settings.address)) {
        return;
    }
    if (!settings.certificate) {
        throw std::runtime_error("listening on " + settings.address +
                                 ", beyond this machine, needs a certificate and its key");
    }
    if (settings.hosts.empty()) {
        throw std::runtime_error("listening on " + settings.address +
                                 " needs 'hosts', the names by which browsers reach it");
    }
}

Names::Names(const ServerSettings &settings, unsigned short port)
    : scheme_(settings.certificate ? "https://" : "http://") {
    const bool has_tls = settings.certificate.has_value();
    hosts_.insert(settings.hosts.begin(), settings.hosts.end());
    if (is_loopback(settings.address)) {
        for (const char *name : {"127.0.0.1", "localhost", "[::1]"}) {
            hosts_.insert(host_of(name, port, has_tls));
        }
    }
    first_ = settings.hosts.empty() ? host_of("127.0.0.1", port, has_tls) : settings.hosts.front();
}

bool Names::is_host(std::string_view host) const {
    return hosts_.contains(host);
}

bool Names::is_own_origin(std::string_view origin, std::string_view host) const {
    return is_host(host) && origin == scheme_ + std::string(host);
}

std::string Names::address() const {
    return scheme_ + first_ + "/";
}

} // namespace web
