// What is known of the other end of a connection, and whether its Logon may be believed.
#ifndef GATEWAY_SESSION_CONNECTION_FACTS_H
#define GATEWAY_SESSION_CONNECTION_FACTS_H

#include <string>

namespace gateway {

// A connection, as the log tells of it.
struct ConnectionFacts {
    std::string address;     // ADDRESS:PORT of the peer
    std::string certificate; // the common name of the client's certificate, empty without one
    bool over_tls = false;
};

// What a Logon says of who sent it.
struct LogonFacts {
    std::string firm;     // 49; nobody's, perhaps
    std::string username; // 553
    std::string password; // 554
    bool over_tls = false;
    std::string certificate; // the common name of the client's certificate, empty without one
    std::string address;     // of the peer, without its port
};

// Why the sender of a Logon is refused: told to the operator and the log, and never to the sender.
enum class Refusal {
    none,
    unknown_name,      // no firm of the venue has the name in 49
    no_access,         // the firm has no credentials
    wrong_name,        // 553
    wrong_password,    // 554
    wrong_certificate, // it is another's, or none was shown
    wrong_address,     // the firm does not come from there
    no_longer,         // the credentials have ended
    not_certified,     // no report of the firm was admitted
};

} // namespace gateway

#endif
