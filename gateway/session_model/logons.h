// Judges a Logon with right credentials while no other connection has the session: rows 4 to 9 of
// docs/SESSIONS.md, "The first message of a connection".
#ifndef SESSION_MODEL_LOGONS_H
#define SESSION_MODEL_LOGONS_H

#include "later_rows.h"

namespace session_model {

void judge_logon(Turn &turn, const Event &event);

} // namespace session_model

#endif
