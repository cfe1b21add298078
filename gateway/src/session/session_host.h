// What the sessions ask of the gateway.
#ifndef GATEWAY_SESSION_SESSION_HOST_H
#define GATEWAY_SESSION_SESSION_HOST_H

#include "session/connection_facts.h"
#include "session/refused_numbers.h"
#include "session/session_event.h"

#include <chrono>
#include <cstddef>
#include <cstdint>
#include <optional>
#include <string>
#include <vector>

namespace gateway {

// A day that has not opened, as it is told to a firm that logs on.
struct NotOpen {
    std::string text;                      // 58 of a Logout
    std::optional<SessionNumbers> numbers; // where the session is; none where no Logout is safe
};

// What the sessions need of the gateway. Called on the threads of connections and of deliveries;
// where the gateway can't do it any more, a std::runtime_error is thrown and the session is
// disconnected.
class SessionHost {
  public:
    virtual ~SessionHost() = default;

    // Whether the sender of a Logon is who it says. Takes as long for every name, known or not, and
    // whatever is wrong.
    virtual Refusal judge(const LogonFacts &facts) = 0;
    // From when on a Logon of this address is judged; the greatest moment where none is, and it is
    // refused at once. Asked before judge(), which takes a processor for long.
    using Time = std::chrono::steady_clock::time_point;
    virtual Time judges_from(const std::string & /*address*/) { return {}; }
    // How often the credentials were read anew: a Logon that was judged by an older reading is
    // judged no more.
    virtual std::uint64_t readings() const { return 0; }
    // Why no Logon of the firm is accepted, whatever it says; nothing as a rule.
    virtual std::optional<NotOpen> not_open(const std::string & /*firm*/) { return std::nullopt; }
    // A Logon of the firm was accepted on this connection: returns the connection's number in the
    // log. Called before the answer leaves.
    virtual std::uint32_t logon_accepted(const std::string &firm, const ConnectionFacts &facts) = 0;
    // A Logon in the firm's name was refused, and its connection ends; `why` is one of a few fixed
    // words (refusal_words.h). Whoever connects may have this called.
    virtual void logon_refused(const std::string &firm, const ConnectionFacts &facts,
                               const std::string &why) = 0;
    // A Logon of the firm was accepted, and its engine may have lost its store while it was refused
    // for its credentials. Whoever connects can have this called, once for each Logon of the firm.
    virtual void may_have_lost_store(const std::string & /*firm*/, const NumberClimb & /*climb*/) {}
    // The end of a connection whose Logon was accepted, under its number.
    virtual void connection_ended(const std::string &firm, std::uint32_t connection,
                                  const std::string &why) = 0;
    virtual void logged_on(const std::string &firm) = 0;
    // Before what the log has of its session says so.
    virtual void logged_off(const std::string &firm) = 0;

    // Puts an event of a session into the log. What it returns is waited for before a message of
    // the session's own leaves.
    virtual std::uint64_t put(const std::string &firm, const SessionEvent &event) = 0;
    // Whether the session has had more to say to the firm by itself than a firm may have it say:
    // then the firm is logged out.
    virtual bool replies_too_much(const std::string & /*firm*/) { return false; }
    virtual void wait_stored(std::uint64_t ticket) = 0;
    // The venue is given an entry while that is being committed. Whether all entries up to this
    // place are on disk, so that what the venue gave the firm for them may leave: where they are
    // not, Engine::send_held_back() is called for the firm once more of them are. And the same,
    // which waits for it.
    virtual bool is_entry_stored(const std::string & /*firm*/, std::uint32_t /*place*/) {
        return true;
    }
    virtual void wait_entry_stored(std::uint32_t /*place*/) {}
    // The same of an event by which a message of the application, the next one of its session,
    // comes to the venue.
    virtual Taken take(const std::string &firm, const SessionInput &input,
                       const SessionEvent &event) = 0;
    // Waits until a message that was received then may be taken. Its turn is kept until the firm's
    // next take(), or give_turn_back().
    virtual void wait_for_turn(const std::string & /*firm*/, const Receipt & /*receipt*/) {}
    virtual void give_turn_back(const std::string & /*firm*/) {}
    // No more of them is there now: they are to be committed.
    virtual void all_received() = 0;

    // What the session keeps from a number on, `limit` at most, in order; all that was put is
    // there.
    virtual std::vector<KeptMessage> kept_messages(const std::string &firm, std::uint32_t from,
                                                   std::size_t limit) = 0;
    // An operator's reset: numbers begin again, and what the session keeps of the venue's behind
    // this number gets those from 2 on. How many they are, and then that it is so.
    virtual std::uint64_t count_kept(const std::string & /*firm*/, std::uint32_t /*behind*/) {
        return 0;
    }
    virtual void put_reset(const std::string & /*firm*/, std::uint32_t /*behind*/,
                           const SessionEvent & /*event*/) {}

    // So much of the firm was read from its socket, and so many messages were sent to it again:
    // from when on more may be.
    virtual Time was_read(const std::string &, std::size_t /*messages*/, std::size_t /*bytes*/) {
        return {};
    }
    virtual Time was_sent_again(const std::string &, std::size_t /*messages*/) { return {}; }
};

} // namespace gateway

#endif
