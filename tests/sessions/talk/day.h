// A day of two sessions that talk over lines that lose, double, spoil, shorten, delay and break.
#ifndef SESSIONS_TALK_DAY_H
#define SESSIONS_TALK_DAY_H

#include "line.h"
#include "side.h"

#include <cstdint>
#include <map>
#include <random>
#include <string>

namespace sessions {

class TalkDay {
  public:
    explicit TalkDay(std::uint32_t seed);

    // Throws where the libraries differ, or a turn breaks a law. What is wrong at its end.
    std::string run();
    long messages() const { return messages_; }
    int lines() const { return last_line_; }

  private:
    struct Line {
        Way up, down;
        bool has_caller = true, has_called = true;   // each side has its end
        Millis caller_hears = -1, called_hears = -1; // when it hears that the line is gone
    };

    unsigned draw(unsigned below) { return static_cast<unsigned>(random_() % below); }
    Ends ends_of(bool is_called);
    void step(Millis most);
    void happen();
    void call();
    void cut();
    void come_as_a_stranger();
    void deliver();
    void deliver_on(int name, Line &line);
    void lose(int name, Line &line);
    void restart(bool is_called);
    void give(Side &side);
    void run_calmly(Millis span);
    std::string end();

    std::mt19937 random_;
    int heartbeat_;
    Faults faults_;
    unsigned denied_; // so many of a hundred messages are not taken
    unsigned gives_;  // so many of a thousand steps give a message
    Side caller_, called_;
    std::map<int, Line> lines_;
    int current_ = 0; // the caller's
    int last_line_ = 0;
    bool is_calm_ = false;
    long messages_ = 0;
};

} // namespace sessions

#endif
