// When a session has settled after a Logon: docs/SESSIONS.md, "Settling".
#ifndef SESSION_MODEL_SETTLING_H
#define SESSION_MODEL_SETTLING_H

#include "incoming.h"
#include "turn.h"

namespace session_model {

// A message came that may answer a TestRequest of this connection.
void take_answer(SessionState &session, const Incoming &message);

// The firm is known to have all that is kept for it.
bool owes_nothing(const Day &day);

// Whether a message may leave for the first time: a 35=3 not before the session has settled.
bool may_leave(const Line &line, Text type);

} // namespace session_model

#endif
