// Calls a session in each library that the program has. If two do not answer the same, the test
// ends.
#ifndef SESSIONS_MACHINE_H
#define SESSIONS_MACHINE_H

#include "fix_sessions.h"

#include <string>

namespace sessions {

struct Library;

// Whose session it is. Of one venue among several the desk is its TargetSubID (57).
struct Names {
    std::string firm = "DLR1", venue = "VENUE", desk;
};

// What one event did.
struct Turn {
    bool is_done = false; // else an argument was none, and nothing was done
    Told told{};
    std::string first, second; // what leaves
    std::string kept;          // what is kept under the first one's number
};

// Why the gateway does not take a message.
struct Denial {
    std::uint64_t reason = 0;
    std::string id, text;
};

// What is kept under a number.
struct Kept {
    std::string frame;
    std::uint32_t first = 0; // the moment
    bool is_copy = false;
    bool is_own = false; // the session's: a Reject, a 35=j, or an answer to a TestRequest
};

// What a Logon says of itself.
struct Question {
    std::string firm, venue, desk, username, password;
};

class Machine {
  public:
    enum class Order : std::uint32_t { Open, Close, Suspend, Resume, Release, Reset };

    explicit Machine(const Names &names = Names());

    const SessionState &state() const { return state_; }

    // Without a denial the gateway takes the message.
    Turn came(std::uint64_t connection, const std::string &bytes, bool is_known,
              const Denial *denial);
    Turn given(const std::string &frame);
    Turn hands(std::uint64_t next_kept, const Kept *kept);
    Turn tick();
    Turn ordered(Order order, std::uint64_t copies = 0);
    Turn log_out(const std::string &text);
    void gone(std::uint64_t connection);
    Wanted wants() const;

    // What a start makes of what was kept.
    void restart();
    // The session as it was before a turn.
    void adopt(const SessionState &before) { state_ = before; }

    static FoundNext next(const std::string &stream);
    static Question question(const std::string &bytes);
    static bool is_logout(const std::string &bytes);
    static bool is_first_late(std::uint32_t since);
    static bool is_parting_over(std::uint32_t since);

  private:
    // What an event does to the session, by a call of each library.
    template <typename Call> Turn turn_of(const std::string &event, Call call);

    Names names_;
    SessionState state_{};
};

} // namespace sessions

#endif
