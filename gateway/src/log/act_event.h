// Tells an operator's act as an event.
#ifndef GATEWAY_LOG_ACT_EVENT_H
#define GATEWAY_LOG_ACT_EVENT_H

#include "log/notes.h"

#include <string>

namespace gateway {

// act="WHO WORDS" because="..", the reason as its note has it, so that quotation marks stand in
// none.
std::string event_of(const Act &act);

} // namespace gateway

#endif
