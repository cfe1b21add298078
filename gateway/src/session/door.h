// The door: it judges the first message of a connection, before the connection has a session.
#ifndef GATEWAY_SESSION_DOOR_H
#define GATEWAY_SESSION_DOOR_H

#include "session/connection_facts.h"
#include "session/engine_events.h"
#include "session/firm_session.h"
#include "session/machine.h"

#include <cstdint>
#include <string>
#include <string_view>

namespace gateway {

class Transport;
class Sessions;

// Stands between a connection and all sessions until a Logon was accepted. Whoever connects may
// send anything here, so that nothing of a session is touched before the sender is known: not its
// numbers, its entries or the venue. Who is turned away is told nothing.
class Door {
  public:
    using Standing = FirmSession::Standing;

    Door(const Sessions &sessions, EngineEvents &events, Transport &transport);

    // Judges the first message of the connection, in this order: whether it is a Logon that can be
    // read; which session its 49, 56 and 57 name; its credentials and the certificate; and then
    // the session judges the rest.
    Standing judge(std::string_view first);
    // The same Logon again, while it waits for the firm's old connection.
    Standing look_again();
    // The connection ends, or has ended, before its Logon was accepted; `word` is one of
    // stranger_words. Told once.
    void turn_away(const char *word, const std::string &text);
    // The connection has ended, and its session is given back, if it had one.
    void end(const std::string &why);

    // Whose Logon it is, once the sender is known; null before that.
    FirmSession *session() const { return is_known_ ? session_ : nullptr; }
    // The connection's, for the session.
    std::uint64_t connection() const { return connection_; }

  private:
    FirmSession *named_in(const LogonQuestion &logon) const;
    // What was found of a sender, and by which reading of the credentials.
    struct Judged {
        Refusal refusal = Refusal::unknown_name;
        std::uint64_t reading = 0;
    };
    bool judge_sender(const LogonQuestion &logon, Judged &judged) const;
    Standing refuse(const char *word, std::string_view logon);

    const Sessions &sessions_;
    EngineEvents &events_;
    Transport &transport_;
    const std::uint64_t connection_;
    FirmSession *session_ = nullptr; // that the Logon names
    bool is_known_ = false;          // the sender is the firm
    bool is_told_ = false;           // how it ended
    std::string logon_;              // while it waits
};

} // namespace gateway

#endif
