// A venue that a test plays: the other end of a desk's FIX session.
#ifndef DESK_TESTS_PLAYED_VENUE_H
#define DESK_TESTS_PLAYED_VENUE_H

#include "common/descriptor.h"
#include "message.h"

#include <chrono>
#include <optional>
#include <string>

namespace desk_tests {

// Where the desk does not do what is waited for, the test fails.
class PlayedVenue {
  public:
    PlayedVenue(); // listens
    int port() const { return port_; }

    // Waits for the desk to connect, lets it in, and asks for what it has missed; the desk's Logon.
    // A connection that the desk has given up, before this took it, is none.
    desk::Message let_in();
    // The same of a session whose numbers begin anew (141=Y): the venue's next day.
    desk::Message let_in_anew();
    // The next message of the desk's that is none of the session itself.
    desk::Message hear();
    // A message of the venue's, whose fields behind the header have bars for SOH.
    void say(const std::string &type, const std::string &fields);
    // Says that it is there, where it has said nothing for seconds: a busy machine may take long.
    void stay();
    // The connection is lost.
    void hang_up() { line_.close(); }

  private:
    // Waits for the desk to connect: its Logon.
    desk::Message take_logon();
    void wait_for(const gateway::Descriptor &one);
    desk::Message read();
    // Nothing where the line has ended.
    std::optional<desk::Message> next();
    bool has_ended() const;
    void write(const std::string &type, const std::string &fields);

    gateway::Descriptor listener_;
    gateway::Descriptor line_;
    int port_ = 0;
    std::string firm_;  // who has logged on
    std::string bytes_; // that were read and not taken
    int heard_ = 0;     // MsgSeqNum (34) of the desk's last message
    int said_ = 0;      // and of the venue's
    int numbered_ = 0;  // ApplSeqNum (1181)
    std::chrono::steady_clock::time_point spoke_;
};

} // namespace desk_tests

#endif
