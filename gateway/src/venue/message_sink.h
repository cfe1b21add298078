// Takes the messages that a venue gives.
#ifndef GATEWAY_VENUE_MESSAGE_SINK_H
#define GATEWAY_VENUE_MESSAGE_SINK_H

#include "session/session_event.h"

#include <cstdint>

namespace gateway {

// Called by the thread that reads the venue.
class MessageSink {
  public:
    virtual ~MessageSink() = default;

    // The next message of a firm: each once, however often the venue's process is started.
    virtual void take(Delivery delivery) = 0;
    // All that the venue has said so far was given.
    virtual void pauses() = 0;
    // All messages for the entries up to this place were given.
    virtual void answered(std::uint32_t place) = 0;
};

} // namespace gateway

#endif
