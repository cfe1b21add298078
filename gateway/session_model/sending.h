// How a session numbers, keeps and sends the venue's messages: docs/SESSIONS.md, "What the venue
// sends" and "A resend".
#ifndef SESSION_MODEL_SENDING_H
#define SESSION_MODEL_SENDING_H

#include "turn.h"

namespace session_model {

// What is kept under a number.
struct Stored {
    Body body;
    std::uint32_t first = 0; // when it left first, or was kept
    bool is_copy = false;
};

// The venue gives a message.
void give(Turn &turn, const Clock &clock, Body body);

// What is kept under the number that is wanted, or that nothing is. `next_kept`: the next number
// under which something is kept.
void hand(Turn &turn, const Clock &clock, std::uint64_t next_kept, std::optional<Stored> stored);

// What a session asks for.
Wanted wanted_by(const SessionState &session);

} // namespace session_model

#endif
