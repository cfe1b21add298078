// What a session does when a message comes, and when a connection is gone.
#ifndef SESSION_MODEL_EVENTS_H
#define SESSION_MODEL_EVENTS_H

#include "later_rows.h"

namespace session_model {

// Whose message it is decides which table judges it.
void came(Turn &turn, const Event &event);

void gone(SessionState &session, std::uint64_t connection);

} // namespace session_model

#endif
