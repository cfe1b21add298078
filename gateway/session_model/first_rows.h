// The first message of a connection: docs/SESSIONS.md, "The first message of a connection", row by
// row.
#ifndef SESSION_MODEL_FIRST_ROWS_H
#define SESSION_MODEL_FIRST_ROWS_H

#include "later_rows.h"

namespace session_model {

void judge_first(Turn &turn, const Event &event);

} // namespace session_model

#endif
