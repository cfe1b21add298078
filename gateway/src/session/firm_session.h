// One firm's FIX session.
#ifndef GATEWAY_SESSION_FIRM_SESSION_H
#define GATEWAY_SESSION_FIRM_SESSION_H

#include "session/engine_events.h"
#include "session/kept_rows.h"
#include "session/logon_rate.h"
#include "session/machine.h"
#include "session/refused_numbers.h"
#include "session/session_start.h"

#include <chrono>
#include <cstdint>
#include <deque>
#include <map>
#include <mutex>
#include <string>
#include <string_view>

namespace gateway {

class Transport;

// The machine decides; this moves bytes between it and connections, puts what each event does into
// the log, and hands the machine what it keeps. Nothing that the machine did is seen before it is
// in the log's next batch, no message of the session's own before that batch is committed, and no
// message of the venue before the entries are that it answers.
//
// Each connection's thread calls it for its own; deliver() and deliver_at_once() are called by one
// thread at a time, all else by any.
class FirmSession final {
  public:
    using Received = std::chrono::system_clock::time_point; // when a message's last byte was read
    using Time = SessionHost::Time;

    FirmSession(const SessionStart &start, EngineEvents &events);
    ~FirmSession();
    FirmSession(const FirmSession &) = delete;
    FirmSession &operator=(const FirmSession &) = delete;

    // Whether a Logon with this SenderCompID (49) and TargetSubID (57) is for this session.
    bool is_named(const std::string &firm, const std::string &desk) const;
    // Whether it is one of the venue that this TargetSubID names.
    bool is_of(const std::string &desk) const;
    SessionHost &host() const { return host_; }
    const std::string &firm() const { return names_.firm; }
    const std::string &date() const { return names_.date; }

    // How a connection stands to the session.
    enum class Standing {
        on,    // it has the session
        waits, // it may have it, once it is known whether an older connection is dead
        parts, // it was refused with a Logout: it ends with the firm's own, or soon
        over,  // it ends, or has ended
    };

    // The first message of a connection, a Logon with the right credentials by this reading of
    // them, is judged. The transport is called until release().
    Standing enter(std::uint64_t connection, Transport &transport, std::string_view logon,
                   std::uint64_t reading);
    // The same again of one that waits.
    Standing look_again(std::uint64_t connection, std::string_view logon);
    // A message that came after the Logon. Whether something is to leave before the next one is
    // looked at.
    bool take(std::uint64_t connection, std::string_view message, Received at);
    // No more has come for now.
    void all_taken();
    // Heartbeats, and what else time brings about, by the time of the connection that has the
    // session: that of another one is none of it.
    void tick(std::uint64_t connection, Received now);
    // Ends what the connection had. No call reaches its transport after it.
    void release(std::uint64_t connection, const std::string &why);

    // Leaves with the transport what is to leave now, as far as it is committed and the firm takes
    // it. From when on it is to be called again, if there is more. It is `now` for the firm.
    struct Work {
        bool has_more = false;
        Time from{};
    };
    Work serve(std::uint64_t connection, Received now);

    // Where more follow at once, its bytes leave with theirs.
    void deliver(const Delivery &delivery, bool more_follow = false);
    // False where another event is at work: then nothing was done.
    bool deliver_at_once(const Delivery &delivery);
    // More entries are on disk. Where another event is at work the connection's thread is woken.
    void send_held_back();
    // Ends the connection, if there is one.
    void shut();
    // Bytes that the firm has not taken yet.
    std::size_t waiting_bytes() const;
    // Logs the firm out, if it is logged on.
    void log_out(const std::string &reason);
    // A Logon in the firm's name has wrong credentials. Anybody may send one.
    void credentials_refused(std::string_view logon);
    // What an operator orders; some with the place of the act in the log.
    void suspend() { order(Order::suspend); }
    void resume() { order(Order::resume); }
    void release_firm(std::uint32_t act);
    void reset(std::uint32_t act);

  private:
    // What waits for its commit: that of a batch, 0 for none, and of the entries up to a place.
    struct Unsent {
        std::uint64_t ticket = 0;
        std::uint32_t place = 0;
        std::string bytes;
    };
    // A connection that has the session, or would have it.
    struct Visitor {
        Transport *transport = nullptr;
        std::uint64_t reading = 0; // of the credentials that were right
        std::uint32_t number = 0;  // in the log, 0 where no Logon was accepted
        std::deque<Unsent> unsent;
        std::uint64_t last_ticket = 0; // of what was put there
        bool parts = false;
        std::uint32_t parts_since = 0; // a moment
        bool is_over = false;          // it ends once that has left
        bool was_judged = false;       // it is told what became of its Logon
        std::string why;
    };
    enum class Step { idle, moved, handed, unknown, held };
    enum class Came { done, waits };

    // firm_session.cpp. The lock is held in each of these, but where it says otherwise.
    std::uint32_t moment_at(Received at) const;
    std::uint32_t moment_now() const;
    std::uint32_t begin(Received at);
    std::uint32_t begin();
    Visitor *visitor(std::uint64_t connection);
    Visitor *holder();
    void note_transport();
    Standing standing_here(std::uint64_t connection) const;
    void order(Order order); // takes the lock
    SessionNote note_of_act(char kind, std::uint32_t act) const;
    void note_why(const std::string &why);
    void note_unsaid();
    void deliver_here(const Delivery &delivery);
    void forget_rows();
    SessionEvent event_of(const Delivery *delivery) const;
    void carry_out(const Delivery *delivery);
    void carry_out(SessionEvent event);
    void begin_if_accepted();
    void complete(std::uint64_t ticket, const Delivery *delivery);
    void note_kept(const SessionEvent &event, std::uint64_t ticket);
    void post(const MachineTurn &turn, std::uint64_t ticket);
    bool may_leave(const Unsent &unsent) const;
    void send_what_may_leave(Visitor &to);
    void end_as_told(const MachineTurn &turn);
    void end(Visitor &ended, const std::string &why);
    void end_parted();
    void tell(const MachineTurn &turn);

    // firm_session_came.cpp
    Received logon_moment(std::uint64_t connection) const;
    Standing judge_logon(std::uint64_t connection, std::string_view logon);
    Standing refuse_before_opening(std::uint64_t connection, std::string_view logon,
                                   const NotOpen &why);
    Standing refuse_in_silence(std::uint64_t connection, const char *word);
    const char *word_of_refusal(std::uint64_t connection, std::string_view logon, bool too_often);
    void tell_refused(Visitor &refused, const char *word);
    void tell_climb(std::string_view logon, std::uint32_t expected);
    Came judge(std::uint64_t connection, std::string_view message, Received at); // takes the lock
    void deny(std::uint64_t connection, std::string_view message, Received at, const Taken &taken);
    void log_out_if_too_much(std::string_view text);
    void leave(std::uint64_t connection);

    // firm_session_serve.cpp
    bool has_to_say(std::uint64_t connection);        // takes the lock
    Time count_handed(std::size_t handed);            // takes the lock
    bool flush(std::uint64_t connection, bool waits); // takes the lock
    void wait_stored(std::unique_lock<std::mutex> &lock, std::uint64_t ticket, std::uint32_t place);
    Step step(std::uint64_t connection, Received now); // takes the lock
    Step hand(const Wanted &wanted);
    void load(std::uint64_t connection); // takes the lock

    const SessionNames names_;
    const std::string name_; // for events: with the venue, where there are several
    SessionHost &host_;
    EngineEvents &events_;
    const Received midnight_;

    // Over all that follows. `transport_mutex_`, and the locks of the host and of transports, are
    // taken under it: whoever holds one of those may try it, and not wait for it.
    mutable std::mutex mutex_;
    Machine machine_;
    std::uint32_t moment_ = 0; // of its last event
    // By how much the time of the connection that has the session is ahead of the clock: that was
    // set back since the firm's last message.
    Received::duration ahead_{};
    std::string_view message_; // that it is, empty where it is another
    LogonRate logons_;
    RefusedNumbers refused_;
    KeptRows rows_;
    Time hands_from_{};            // by the firm's rate of what is sent again
    std::uint32_t load_from_ = 0;  // the number that step() found unknown
    std::uint32_t load_end_ = 0;   // and the one behind the last that is to leave with it
    std::uint64_t forgotten_ = 0;  // how often what is kept was another from then on
    std::uint64_t own_ticket_ = 0; // of the last event but those by which the venue gives something
    std::uint64_t stored_ticket_ = 0; // the last one that is known to be committed
    std::uint32_t given_for_ = 0;     // the last entry for which the venue has given something
    bool has_received_ = false;       // what the host was not told the end of
    bool more_follow_ = false;        // with whose bytes those of now leave
    std::map<std::uint64_t, Visitor> visitors_;

    // Over the transport of the connection that has the session: whoever shuts it waits for no
    // event.
    mutable std::mutex transport_mutex_;
    Transport *transport_ = nullptr;
};

} // namespace gateway

#endif
