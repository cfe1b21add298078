// The names of the venue and of a firm's session with it.
#ifndef GATEWAY_SESSION_SESSION_NAMES_H
#define GATEWAY_SESSION_SESSION_NAMES_H

#include <string>
#include <string_view>

namespace gateway {

// SenderCompID (49) of all that the venue sends, whichever it is.
constexpr std::string_view venue_name = "VENUE";

// The name of a firm's session with a venue. A venue that is the only one has no name.
inline std::string session_name(const std::string &venue, const std::string &firm) {
    return venue.empty() ? firm : venue + "/" + firm;
}

} // namespace gateway

#endif
