// A line between two sessions that keeps nothing of what TCP promises but the order.
#ifndef SESSIONS_TALK_LINE_H
#define SESSIONS_TALK_LINE_H

#include "../clock.h"

#include <deque>
#include <random>
#include <string>

namespace sessions {

// What a line does to messages, in so many of a thousand.
struct Faults {
    unsigned loses = 0, doubles = 0, spoils = 0, shortens = 0;
    Millis most_delay = 5; // each way
};

// One way of a line.
class Way {
  public:
    void put(const std::string &message, const Faults &faults, std::mt19937 &random);
    // What is due, or nothing.
    std::string pull();
    // The line breaks: what is behind some byte is lost.
    void cut(std::mt19937 &random);
    bool is_empty() const { return parts_.empty(); }

  private:
    struct Part {
        Millis due;
        std::string bytes;
    };
    std::deque<Part> parts_;
    Millis last_ = 0;
};

} // namespace sessions

#endif
