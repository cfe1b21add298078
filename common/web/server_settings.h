// The settings of a server: where it listens, by which names it is reached, and its limits.
#ifndef WEB_SERVER_SETTINGS_H
#define WEB_SERVER_SETTINGS_H

#include <chrono>
#include <cstddef>
#include <optional>
#include <set>
#include <string>
#include <string_view>
#include <vector>

namespace web {

// Files in PEM.
struct Certificate {
    std::string chain;
    std::string key;
};

struct Limits {
    std::size_t connections = 256;
    std::size_t connections_per_address = 128; // people behind one proxy share an address
    std::size_t header_bytes = 16384;
    std::size_t body_bytes = 4096;
    std::size_t message_bytes = 16384;   // of a WebSocket, from the peer
    std::size_t waiting_messages = 8192; // for one WebSocket
    std::size_t waiting_bytes = 64 * 1024 * 1024;
    std::chrono::seconds request_time{10}; // from the connection, or the last answer, to a request
};

struct ServerSettings {
    std::string address = "127.0.0.1";
    unsigned short port = 0;                // 0: one that the system gives
    std::vector<std::string> hosts;         // what Host may say beside the loopback's names
    std::optional<Certificate> certificate; // plain HTTP without one
    Limits limits;
};

// Throws std::runtime_error where people beyond this machine would be served without TLS, or by no
// name.
void check(const ServerSettings &settings);

// The names by which a server is reached, and the origins of its own pages. A page of another host,
// be it one that resolves to this address, and one of another port have others.
class Names {
  public:
    Names(const ServerSettings &settings, unsigned short port);

    bool is_host(std::string_view host) const;
    bool is_own_origin(std::string_view origin, std::string_view host) const;
    // To be opened in a browser.
    std::string address() const;

  private:
    std::string scheme_;
    std::string first_;
    std::set<std::string, std::less<>> hosts_;
};

} // namespace web

#endif
