// The two sides and the lines between them. A line delays each way, cuts at any byte, and brings a
// message in pieces. Each side hears at its own time that the line is gone.
#ifndef SESSIONS_WORLD_H
#define SESSIONS_WORLD_H

#include "clock.h"
#include "firm.h"
#include "venue.h"

#include <cstdint>
#include <deque>
#include <map>
#include <memory>
#include <random>
#include <set>
#include <string>
#include <vector>

namespace sessions {

// How a world is drawn.
struct Kind {
    int heartbeat = 30;      // HeartBtInt, in seconds
    Millis most_delay = 5;   // of a line, each way
    bool bad_frames = false; // the firm sends what is to be rejected
    unsigned rejects = 0;    // so many of a hundred messages of the venue are 35=3
    unsigned denied = 0;     // so many of a hundred messages of the firm are not taken
    unsigned garbled = 0;    // so many of a hundred frames of the firm are spoilt
    bool is_loud = false;
    std::string dictionary;
};

// A Reject or a 35=j of the session, and what the firm heard of it.
struct Rejection {
    std::string about; // MsgSeqNum (34) of what was rejected
    std::string id;    // of what was rejected
    bool may_be_lost;  // nothing was counted, or its number means another message by now
    int heard = 0;
    std::set<std::string> numbers; // under which it was heard
};

class World final : Carrier, FirmCarrier {
  public:
    World(std::uint32_t seed, const Kind &kind);

    unsigned draw(unsigned below) { return static_cast<unsigned>(random_() % below); }

    // Time goes on, and what each side does by its clock.
    void advance(Millis span);
    // What is due on the lines comes in, or some of it.
    void deliver(bool all);
    // So long, with all that is due delivered, and connections that come back.
    void run(Millis span);

    bool is_connected() const { return current_ >= 0; }
    void connect();
    // The line breaks.
    void cut();
    void restart_venue();
    void restart_firm(bool forgets);
    void log_out_firm();
    // The firm sends a message, the venue gives one.
    void send(bool is_bad);
    void give();
    void reset();

    Venue &venue() { return venue_; }
    Firm &firm() { return firm_; }
    // The firm's Logons have 141=Y until one is accepted.
    void reset_at_logon();
    bool waits_for_reset() const { return resets_ && !has_logged_on_; }
    // From now on the firm sends nothing that is to be rejected, and no frame is spoilt.
    void settle_down();
    long messages() const { return messages_; }
    long given_by_venue() const { return given_; }

    // What is wrong with the day: nothing where everything came once and in order.
    std::string verdict();

  private:
    struct Part {
        Millis due;
        std::string bytes;
    };
    using Way = std::deque<Part>;
    struct Route {
        Way up, down;
        Millis last_up = 0, last_down = 0;
        bool firm_end = true, venue_end = true;
        Millis firm_hears = -1, venue_hears = -1; // when each hears that it is gone
    };

    void send(int connection, const std::string &bytes) override;
    void close(int connection) override;
    void accepted(int connection) override { accepted_.insert(connection); }
    bool takes(const std::string &frame) override;
    void taken(const std::string &frame) override;
    void rejected(const std::string &frame, bool is_counted) override;
    void rejects_dropped() override;
    void note(const std::string &text) override;
    void sent(const std::string &bytes) override;
    void disconnected() override;
    void received(const Received &message) override;
    void logged_on() override;

    Millis delay() {
        return static_cast<Millis>(draw(static_cast<unsigned>(kind_.most_delay) + 1));
    }
    void put(Way &way, Millis &last, const std::string &bytes);
    // What is on a line behind some byte is lost.
    void chop(Way &way);
    // A part that is due, or a piece of it; false where none is.
    bool pull(Way &way, bool all, std::string &bytes);
    void deliver_up(int connection, bool all);
    void deliver_down(bool all);
    void forget(int connection);
    std::string spoilt(const std::string &frame);
    void hear_reject(const Received &message);
    std::string wrong_rejects() const;
    std::string wrong_at_venue() const;
    std::string wrong_at_firm() const;
    void say(const std::string &text) const;

    std::mt19937 random_;
    Kind kind_;
    Venue venue_{*this};
    Firm firm_;
    std::map<int, Route> routes_;
    int current_ = -1;
    int next_route_ = 1;
    Millis next_second_ = 0;
    bool resets_ = false;
    bool has_logged_on_ = false;
    std::set<int> accepted_; // lines whose Logon the venue accepted since an operator's reset
    bool is_settling_down_ = false;
    long messages_ = 0;

    int asked_ = 0;
    int given_ = 0;
    std::vector<std::string> good_, bad_; // what the firm sent
    std::set<std::string> may_be_lost_;   // sent before an operator's reset, and not taken
    std::vector<std::string> taken_;
    std::vector<Received> got_;
    std::vector<Rejection> rejections_;
    std::set<std::string> rejected_ids_;
    int twice_ = 0, strange_ = 0;
};

} // namespace sessions

#endif
