// Each message of a firm that is logged on: docs/SESSIONS.md, "Each later message", row by row.
#ifndef SESSION_MODEL_LATER_ROWS_H
#define SESSION_MODEL_LATER_ROWS_H

#include "bodies.h"
#include "turn.h"

namespace session_model {

// A message that came.
struct Event {
    const Names &names;
    const Clock &clock;
    const Incoming &message;
    std::uint64_t connection = 0;
    bool is_known = false;             // the credentials are right
    std::optional<Denial> denial = {}; // the gateway does not take it
};

void judge_later(Turn &turn, const Event &event);

} // namespace session_model

#endif
