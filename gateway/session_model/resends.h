// How a session asks for missing messages, and sends its own again: docs/SESSIONS.md, "A resend".
#ifndef SESSION_MODEL_RESENDS_H
#define SESSION_MODEL_RESENDS_H

#include "incoming.h"
#include "turn.h"

namespace session_model {

// The firm's message is above the expected number: a ResendRequest is due, once.
void note_gap(Line &line, std::uint64_t number);

// What is missing is requested, where that is due and nothing waits. False where it is not.
bool request_missing(Turn &turn, const Clock &clock);

// Does what a ResendRequest (35=2) asks. False where it was rejected.
bool resend(Turn &turn, const Clock &clock, const Incoming &message);

// The numbers from one up to another, and not that one, leave again.
void widen_resend(Line &line, std::uint64_t from, std::uint64_t end);

// Answers the firm's Logout, and disconnects.
void part(Turn &turn, const Clock &clock);

} // namespace session_model

#endif
