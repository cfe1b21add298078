// Messages of a firm as a session may meet them: most as an engine sends them, each also with
// something that an engine never does.
#ifndef SESSIONS_EVENTS_MESSAGES_H
#define SESSIONS_EVENTS_MESSAGES_H

#include "draw.h"

#include "../machine.h"

namespace sessions {

// What a message refers to.
struct Scene {
    const SessionState &state;
    const Names &names;
    std::uint32_t moment;
};

// A message, and what has become of it on the way.
std::string drawn_message(Draw &draw, const Scene &scene);

// The first message of a connection: a Logon as a rule.
std::string drawn_logon(Draw &draw, const Scene &scene);

// A message of the venue: its frame, or what is none.
std::string drawn_given(Draw &draw);

// Bytes of a stream: messages, parts of them, and others.
std::string drawn_stream(Draw &draw, const Scene &scene);

// Bytes with some of them changed, left out or doubled.
std::string mutated(Draw &draw, std::string bytes);

} // namespace sessions

#endif
