// What the gateway keeps of a session: its numbers, and what operators ordered.
#ifndef GATEWAY_SESSION_SESSION_NUMBERS_H
#define GATEWAY_SESSION_SESSION_NUMBERS_H

#include <cstdint>

namespace gateway {

// The columns of the table `session` (schema.sql), as the session machine has them.
struct SessionNumbers {
    std::uint32_t expected = 1;    // that of the firm's next message
    std::uint32_t next = 2;        // that of the next message to the firm; 1 is the first answer's
    std::uint32_t had = 0;         // of the last TestRequest that the firm answered
    std::uint32_t first_given = 0; // of the first message of the venue that is kept, 0 for none
    std::uint32_t last_given = 0;  // of the last one
    std::uint32_t last_kept = 0;   // of the last one that is kept, the session's own too
    bool is_one_free = true;       // number 1 was not used
    bool was_taken = false;        // the venue was given a message of the firm
    bool is_reset = false;         // by an operator, and no Logon was accepted since
    std::uint64_t reset_at = 0;    // the time of that, in milliseconds of the calendar
    bool is_locked = false;        // the firm's engine has lost its store
    std::uint64_t last_logon = 0;  // 52 of the last Logon that was accepted, likewise
    bool is_suspended = false;     // by an operator

    bool operator==(const SessionNumbers &) const = default;

    // The session is over for the day: no number is left. What the venue gives it from then on has
    // none.
    static constexpr std::uint32_t last = 999999990;
    bool is_spent() const { return expected > last || next > last; }
};

} // namespace gateway

#endif
