// Checks each turn of a session against the laws of a session.
#ifndef SESSIONS_TALK_LAWS_H
#define SESSIONS_TALK_LAWS_H

#include "../venue.h"

#include <cstdint>
#include <string>

namespace sessions {

// Of one session, from its beginning on and without an operator's reset. Each call throws
// std::runtime_error where a turn breaks a law.
class Laws {
  public:
    void see(const Seen &seen);

  private:
    // Nothing without a Logon: who may be answered, give, and move the expected number.
    void check_logon(const Seen &seen);
    // Each message once, and none is dropped.
    void check_counted(const Seen &seen);
    // What leaves.
    void check_left(const Seen &seen, const std::string &frame);

    int has_ = 0;             // the connection that has the session, by a Logon that was accepted
    std::uint64_t taken_ = 0; // the last number that the venue was given
    std::uint64_t fresh_ = 0; // the last number that left for the first time, of what is kept
};

// A message's MsgSeqNum (34), or 0.
std::uint64_t number_of(const std::string &frame);

// Whether a turn counted the message that came, and by one.
bool is_counted(const Seen &seen);

} // namespace sessions

#endif
