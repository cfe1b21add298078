// The session notes of one turn.
#ifndef GATEWAY_SESSION_NOTES_OF_TURN_H
#define GATEWAY_SESSION_NOTES_OF_TURN_H

#include "session/machine.h"
#include "session/session_note.h"

#include <cstddef>
#include <cstdint>
#include <vector>

namespace gateway {

// What the machine's last event, before it is adopted, has to have in the log: in the order of
// docs/RECOVERY.md. Not of an event by which the venue gives something, nor of an operator's reset
// or release: those have a note of their own.
std::vector<SessionNote> notes_of_turn(const Machine &machine, std::uint32_t moment);

// How many of these notes are messages that a firm may have the session say only so often. Not the
// answer to a Logon, the first TestRequest behind it, and the Logout at its end: each Logon that is
// accepted has one, and these have a rate of their own.
std::size_t replies_in(const std::vector<SessionNote> &notes, const Machine &machine);

} // namespace gateway

#endif
