// The settings of an engine: its address, its certificates, and how many connections it has room
// for.
#ifndef GATEWAY_SESSION_ENGINE_SETTINGS_H
#define GATEWAY_SESSION_ENGINE_SETTINGS_H

#include <cstddef>
#include <cstdint>
#include <string>

namespace gateway {

// As [fix], [tls] and [limits] of the configuration have it.
struct EngineSettings {
    std::string address;
    std::uint16_t port = 0;
    // Paths of files in PEM; TCP without TLS where there is no certificate.
    std::string certificate;
    std::string key;
    std::string authorities;
    bool client_certificates = false;
    std::string revoked; // a list of the authorities' certificates that they have taken back

    // Connections without an accepted Logon at one time, TLS's handshakes too: of all, and of one
    // address. A firm that has logged on takes no room from them, nor they from it.
    std::size_t strangers = 256;
    std::size_t strangers_per_address = 16;
    unsigned logon_seconds = 10;
    unsigned send_seconds = 10;
    std::size_t waiting_bytes = 4194304;
};

} // namespace gateway

#endif
