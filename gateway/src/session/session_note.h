// What a session did, if no entry of the log says it.
#ifndef GATEWAY_SESSION_SESSION_NOTE_H
#define GATEWAY_SESSION_SESSION_NOTE_H

#include <cstdint>
#include <string>

namespace gateway {

// A session note as a turn gives it: docs/RECOVERY.md says which turn puts which. What else stands
// in its line, the log's writer knows: whose session it is, its numbers, and what it was given.
struct SessionNote {
    // MsgType (35) of a message of the session's own that used a number, or one of session_notes.
    char kind = 'M';
    std::uint32_t number = 0;     // that the message used; 0 without one
    std::uint32_t moment = 0;     // in milliseconds of the session's day
    std::uint64_t last_logon = 0; // of A: SendingTime (52) of the firm's Logon, as the session's
    bool resets = false;          // of A: the Logon has 141=Y
    std::string fields{};         // of 3 and j: all behind 35, each with its SOH
    bool is_locked = false;       // of L
    std::uint32_t act = 0;        // of R, and of L that releases: the place of the operator's act

    bool operator==(const SessionNote &) const = default;
};

namespace session_notes {
constexpr char reset = 'R';
constexpr char lock = 'L';
constexpr char mark = 'M';
} // namespace session_notes

} // namespace gateway

#endif
