// What one connection says: cuts its bytes into messages, and gives them to the door and then to
// its session.
#ifndef GATEWAY_SESSION_CONVERSATION_H
#define GATEWAY_SESSION_CONVERSATION_H

#include "session/door.h"

#include <chrono>
#include <cstddef>
#include <optional>
#include <string>
#include <string_view>

namespace gateway {

// Knows nothing of sockets and threads: it is given bytes, and a Transport for what is said to the
// peer. One thread calls it.
class Conversation {
  public:
    using Received = std::chrono::system_clock::time_point;

    Conversation(const Sessions &sessions, EngineEvents &events, Transport &transport);
    Conversation(const Conversation &) = delete;
    Conversation &operator=(const Conversation &) = delete;

    // Bytes that were read at a moment. Whether a message has ended with them. Many reads in a row
    // in which none has count as a message does, in the rate.
    bool hear(const char *bytes, std::size_t count, Received at);
    // Something was read in which the peer says nothing: it counts as a message does, in the rate.
    void hear_nothing() { ++pieces_; }
    // Whether a Logon waits for the firm's old connection to end. Then nothing is to be read, and
    // the next call is look_again(), soon.
    bool waits() const { return waits_; }
    void look_again();
    // From when on the firm may be read again, by its rate: these are the bytes that it was heard.
    std::chrono::steady_clock::time_point may_hear_from(std::size_t bytes);
    // What the session has to say leaves with the transport, once the firm's rate lets it:
    // FirmSession::serve(). It is `now` for the firm.
    void serve(Received now = std::chrono::system_clock::now());
    // From when on there is more to say; nothing where all is said.
    std::optional<std::chrono::steady_clock::time_point> serves_from() const;
    // The firm has sent more than it may for too long.
    void is_held_too_long();
    // Ends it for this reason, where a firm has logged on.
    void log_out(const char *reason);
    // What time brings about; to be called each fifth of a second. It is `now` for the firm.
    void tick(Received now = std::chrono::system_clock::now());
    // Ends a connection whose Logon was not accepted; `word` is one of stranger_words.
    void turn_away(const char *word, const std::string &text) { door_.turn_away(word, text); }
    // The connection has ended. Called once, and last.
    void end(const std::string &why) { door_.end(why); }

    // The sender of its Logon is known.
    bool is_known() const { return door_.session() != nullptr; }
    // The Logon was accepted, or refused with a Logout: no longer a stranger's.
    bool is_admitted() const { return is_known() && !waits_; }

  private:
    bool go_on();
    bool may_go_on() const;
    void take(std::string_view message);
    void logon_was_judged(Door::Standing standing);
    void skip(std::size_t count);

    Transport &transport_;
    EngineEvents &events_;
    Door door_;
    std::string stream_;
    std::size_t begin_ = 0;  // of what was not taken of it
    bool is_first_ = true;   // no message has come
    bool is_astray_ = false; // behind bytes that say nothing, which is told once
    bool waits_ = false;
    FirmSession::Work work_; // that serve() left
    std::size_t pieces_ = 0; // since may_hear_from()
    int unended_ = 0;        // reads in a row in which no message has ended
    Received at_{};          // when the last bytes were read, or a Logon among them was answered
};

} // namespace gateway

#endif
