// What a session does as time passes: docs/SESSIONS.md, "Time", "Settling", "An operator".
#ifndef SESSION_MODEL_TICKING_H
#define SESSION_MODEL_TICKING_H

#include "turn.h"

namespace session_model {

// Time passes.
void tick(Turn &turn, const Clock &clock);

// Connections without a session.
bool is_first_late(std::uint64_t since, std::uint64_t now);
bool is_parting_over(std::uint64_t since, std::uint64_t now);

} // namespace session_model

#endif
