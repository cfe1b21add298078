// A day of drawn events at one session: no engine talks to it, so each call meets what no engine
// sends. Every library has to say the same of each.
#ifndef SESSIONS_EVENTS_DAY_H
#define SESSIONS_EVENTS_DAY_H

#include "../clock.h"
#include "messages.h"

#include <map>

namespace sessions {

// How often something happened, to be seen that a day goes anywhere.
struct Counts {
    long events = 0, logons = 0, taken = 0, sent = 0, resent = 0, rejected = 0, settled = 0;
};

class EventDay {
  public:
    explicit EventDay(std::uint32_t seed);

    // Throws where two libraries differ.
    void run();

    const Counts &counts() const { return counts_; }

  private:
    void step();
    void disturb();
    void pass_time();
    Millis drawn_limit();
    void come();
    void come_on(std::uint64_t connection, const std::string &bytes);
    void flow();
    void hand(std::uint64_t number);
    void hand_anything();
    void order();
    void end_something();
    void ask_about_bytes();
    void translate();
    void spoil_state();
    void act(const Turn &turn, bool is_own);
    Scene scene() const;

    Draw draw_;
    Names names_;
    Machine machine_;
    std::map<std::uint64_t, Kept> kept_;
    std::map<std::uint64_t, std::string> logons_; // of connections that wait
    Counts counts_;
};

} // namespace sessions

#endif
