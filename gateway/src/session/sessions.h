// All sessions of a gateway.
#ifndef GATEWAY_SESSION_SESSIONS_H
#define GATEWAY_SESSION_SESSIONS_H

#include "session/engine_events.h"
#include "session/session_start.h"
#include "session/turns.h"

#include <atomic>
#include <cstddef>
#include <cstdint>
#include <map>
#include <memory>
#include <set>
#include <string>
#include <vector>

namespace gateway {

class FirmSession;

// How many passwords are judged at one time on a machine with so many processors, and how many
// handshakes go on. A password takes 16 MB, and a processor for tens of milliseconds, and whoever
// connects may ask for both: half of the processors are left to the firms that trade.
std::size_t judged_at_once(int processors);

// One a firm and venue, for as long as this stands.
class Sessions {
  public:
    Sessions(const std::vector<SessionStart> &starts, EngineEvents &events);
    ~Sessions();
    Sessions(const Sessions &) = delete;
    Sessions &operator=(const Sessions &) = delete;

    // More of them, before one is looked for.
    void add(const std::vector<SessionStart> &starts);

    // The session that a Logon with this SenderCompID (49) and TargetSubID (57) names; null where
    // it names none.
    FirmSession *named_by(const std::string &firm, const std::string &venue) const;
    std::size_t count() const { return sessions_.size(); }
    std::size_t venues() const { return venues_.size(); }
    // One of this venue, or of another where it is none; null where there is no session.
    FirmSession *any_of(const std::string &venue) const;
    // A number for a connection, which no other has.
    std::uint64_t next_connection() const { return ++connections_; }
    // Turns of whoever connects: at the judging of passwords, and at the handshakes of TLS.
    Turns &turns() const { return turns_; }
    Turns &handshakes() const { return handshakes_; }
    // By session_name(). Throws std::runtime_error where there is none.
    FirmSession &of(const std::string &name) const;

    // Gives a message to its session, as Engine::deliver().
    void deliver(const Delivery &delivery, bool more_follow = false) const;
    // Logs all out that are logged on.
    void log_out(const std::string &reason) const;

  private:
    EngineEvents &events_;
    mutable std::atomic<std::uint64_t> connections_{0};
    mutable Turns turns_;
    mutable Turns handshakes_;
    std::map<std::string, std::unique_ptr<FirmSession>> sessions_; // by session_name()
    std::set<std::string> venues_;                                 // theirs
};

} // namespace gateway

#endif
