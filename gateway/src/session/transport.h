// A connection as the door and its session see it: it takes their bytes, and says who is at the
// other end.
#ifndef GATEWAY_SESSION_TRANSPORT_H
#define GATEWAY_SESSION_TRANSPORT_H

#include "session/connection_facts.h"

#include <string>
#include <string_view>

namespace gateway {

class Transport {
  public:
    virtual ~Transport() = default;

    // Leaves bytes to be written; waits for nothing. False where the connection has ended or ends
    // by it. Any thread may call it.
    virtual bool send(std::string_view bytes) = 0;
    // Ends when what waits was written, and soon in any case. Any thread may call it.
    virtual void finish(const std::string &why) = 0;
    // Ends now, and what waits is not written. Any thread may call it.
    virtual void shut(const std::string &why) = 0;
    // Whether it has ended, or is about to: nothing that comes is looked at any more.
    virtual bool is_ending() const = 0;

    // Has the thread that reads look at its session. Any thread may call it.
    virtual void wake() = 0;

    virtual ConnectionFacts facts() const = 0;
    // Bytes that the peer has not taken yet. Any thread may call it.
    virtual std::size_t waiting() const { return 0; }
    // A whole Logon has come, and is being judged.
    virtual void is_judged() {}
};

} // namespace gateway

#endif
