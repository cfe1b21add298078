// What a session does on an operator's order: docs/SESSIONS.md, "An operator".
#ifndef SESSION_MODEL_ORDERS_H
#define SESSION_MODEL_ORDERS_H

#include "turn.h"

namespace session_model {

enum class Order : std::uint32_t { open, close, suspend, resume, release, reset };

// `copies`: so many messages of the venue get new numbers at a reset.
void obey(Turn &turn, const Clock &clock, Order order, std::uint64_t copies);

// The gateway logs the firm out, for a reason of its own.
void log_out_by_gateway(Turn &turn, const Clock &clock, Text reason);

} // namespace session_model

#endif
