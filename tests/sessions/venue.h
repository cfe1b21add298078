// The venue's side of the lines: a proved session, the connections of its firm, and what is kept.
// It decides nothing: it moves bytes, keeps what a turn keeps, and hands back what the session asks
// for.
#ifndef SESSIONS_VENUE_H
#define SESSIONS_VENUE_H

#include "machine.h"

#include <map>
#include <string>

namespace sessions {

// A message that came.
struct Came {
    int connection = 0;
    std::string bytes;
    bool is_known = false; // the credentials of its connection are right
};

// What an event did to a session.
struct Seen {
    const SessionState &before;
    const SessionState &after;
    const Turn &turn;
    const Came *came;                          // null where nothing came
    const std::map<std::uint64_t, Kept> &kept; // with what the turn keeps
};

// Whoever carries the venue's bytes, and sees what it does.
class Carrier {
  public:
    virtual ~Carrier() = default;
    virtual void send(int connection, const std::string &bytes) = 0;
    virtual void close(int connection) = 0;
    // The firm's Logon on a connection was accepted.
    virtual void accepted(int connection) = 0;
    // A message of the firm is the venue's.
    virtual void taken(const std::string &frame) = 0;
    // Whether the gateway takes a message that the venue would be given.
    virtual bool takes(const std::string &frame) = 0;
    // A message of the firm was rejected or not taken; it was counted or not.
    virtual void rejected(const std::string &frame, bool is_counted) = 0;
    // What was rejected has no Reject any more that bears its number.
    virtual void rejects_dropped() = 0;
    virtual void note(const std::string &text) = 0;
    // Whether the credentials of a Logon are right.
    virtual bool knows(const Question &asked) const {
        return asked.username == "dlr1" && asked.password == "secret";
    }
    // An event is over, and what it sends leaves behind this.
    virtual void saw(const Seen &seen) { (void)seen; }
};

class Venue {
  public:
    explicit Venue(Carrier &carrier, const Names &names = Names())
        : carrier_(carrier), machine_(names), before_(machine_.state()) {}

    // A connection begins, brings bytes, is gone.
    void opened(int connection);
    void bytes(int connection, const std::string &bytes);
    void gone(int connection);

    // The venue gives a message.
    void give(const std::string &body);
    // One message of what is to leave; false where nothing is.
    bool flow();
    void tick();
    // The process ends and starts: what is not kept is gone.
    void restart();

    void open();
    void suspend();
    void resume();
    // The gateway logs the firm out.
    void log_out();
    // An operator's reset: what the firm is not known to have gets new numbers.
    void reset();
    // A number for a Logon: what is written for a venue sends none that is no answer.
    std::uint64_t use_number();

    bool is_on() const { return machine_.state().phase == 1; }
    bool is_settled() const { return is_on() && machine_.state().line.is_settled; }
    bool is_idle() const;
    bool is_suspended() const { return machine_.state().day.is_suspended; }
    bool is_open() const { return machine_.state().day.is_open; }
    const SessionState &state() const { return machine_.state(); }

  private:
    struct Connection {
        std::string stream;
        std::uint32_t since = 0;
        bool has_spoken = false;
        bool parts = false;
        std::string logon;
        bool is_known = false;
    };

    void drain(int connection);
    void message(int connection, const std::string &bytes);
    void came(int connection, const std::string &bytes, bool is_known);
    bool has_the_session(int connection) const;
    void act(const Turn &turn, bool is_own, const Came *came = nullptr);
    void forget(int connection);
    void keep(const Turn &turn, bool is_own);
    void drop_rejects();
    void end(int connection);
    // A connection that waited has its Logon judged once the session is free.
    void admit();
    bool waits(int connection) const;

    Carrier &carrier_;
    Machine machine_;
    SessionState before_; // the event that goes on
    std::map<int, Connection> connections_;
    std::map<std::uint64_t, Kept> kept_;
};

} // namespace sessions

#endif
