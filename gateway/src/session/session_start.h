// Where a session stands when the gateway starts.
#ifndef GATEWAY_SESSION_SESSION_START_H
#define GATEWAY_SESSION_SESSION_START_H

#include "session/session_host.h"
#include "session/session_numbers.h"

#include <optional>
#include <string>

namespace gateway {

// Where a session is when the gateway starts.
struct SessionStart {
    std::string firm;
    std::string venue; // that its Logon names as TargetSubID (57); empty where it need not
    std::string date;  // YYYYMMDD: today's in UTC where it is empty
    SessionHost *host = nullptr;           // outlives the engine
    std::optional<SessionNumbers> numbers; // of what was kept; nothing of a day that begins
    bool is_open = true;                   // Logons are accepted
};

} // namespace gateway

#endif
