// A firm's FIX session for one day, as C++ calls it: docs/SESSIONS.md has the rules.
//
// Two libraries have these calls. crates/fix_sessions_c is proved; gateway/session_model is the
// second implementation. One program can have both: if SESSION_PREFIX is defined, its text stands
// before each name, and the calls are those of the library that was built so.
//
// A session is a struct of the caller's. Each call changes it by one event, or changes nothing and
// answers false, if an argument is none, memory is refused, or `out` is too short. A copy of the
// struct is a snapshot. `out` has what a turn says, in this order: what leaves first, what leaves
// after it, what is kept; three frames of 4,096 bytes fit into 12,288.
#ifndef GATEWAY_SESSION_FIX_SESSIONS_H
#define GATEWAY_SESSION_FIX_SESSIONS_H

#include <cstddef>
#include <cstdint>

#ifdef SESSION_PREFIX
#define SESSION_JOINED_(prefix, name) prefix##name
#define SESSION_JOINED(prefix, name) SESSION_JOINED_(prefix, name)
#define fix_sessions_new SESSION_JOINED(SESSION_PREFIX, new)
#define fix_sessions_came SESSION_JOINED(SESSION_PREFIX, came)
#define fix_sessions_given SESSION_JOINED(SESSION_PREFIX, given)
#define fix_sessions_hands SESSION_JOINED(SESSION_PREFIX, hands)
#define fix_sessions_tick SESSION_JOINED(SESSION_PREFIX, tick)
#define fix_sessions_ordered SESSION_JOINED(SESSION_PREFIX, ordered)
#define fix_sessions_log_out SESSION_JOINED(SESSION_PREFIX, log_out)
#define fix_sessions_gone SESSION_JOINED(SESSION_PREFIX, gone)
#define fix_sessions_next SESSION_JOINED(SESSION_PREFIX, next)
#define fix_sessions_question SESSION_JOINED(SESSION_PREFIX, question)
#define fix_sessions_is_logout SESSION_JOINED(SESSION_PREFIX, is_logout)
#define fix_sessions_wants SESSION_JOINED(SESSION_PREFIX, wants)
#define fix_sessions_is_first_late SESSION_JOINED(SESSION_PREFIX, is_first_late)
#define fix_sessions_is_parting_over SESSION_JOINED(SESSION_PREFIX, is_parting_over)
#define fix_sessions_wire_out SESSION_JOINED(SESSION_PREFIX, wire_out)
#define fix_sessions_wire_in SESSION_JOINED(SESSION_PREFIX, wire_in)
#endif

extern "C" {

// What a session keeps of its day: all that a restart needs. A number that does not exist is 0. A
// *moment* is milliseconds since the day's midnight; a *time* counts milliseconds as SendingTime
// (52) is counted: those since 1970, and 719,528 days.
struct Day {
    std::uint64_t expected;    // the number of the firm's next message
    std::uint64_t next;        // that of the next message to the firm, 2 or more
    std::uint64_t had;         // the highest TestRequest that the firm has answered
    std::uint64_t first_given; // the first number under which a message of the venue is kept
    std::uint64_t last_given;  // and the last
    std::uint64_t last_kept;   // the last of those, of the session's Rejects and its 35=j
    bool is_one_free;          // number 1 was not used yet
    bool was_taken;            // the venue was given a message of the firm since the last reset
    bool is_reset;             // an operator has reset, and no Logon was accepted since
    std::uint64_t reset_at;    // the time of the operator's last reset
    bool is_locked;            // the engine has lost its store: no Logon is accepted
    std::uint64_t last_logon;  // SendingTime (52) of the last Logon that was accepted
    bool is_open, is_suspended;
};

// The connection by which a firm is logged on. All of it is 0 and false in another phase.
struct Line {
    std::uint64_t connection;     // its name
    std::uint64_t heartbeat;      // HeartBtInt (108), in milliseconds
    std::uint64_t received;       // the moment at which something came last
    std::uint64_t sent;           // and at which something left last
    std::uint64_t gap;            // the highest number that came above the expected one
    std::uint64_t gap_since;      // when what is missing was requested, or a number came, last
    std::uint64_t again;          // what leaves again next,
    std::uint64_t again_end;      // and the number behind the last of it: none where not above
    std::uint64_t fresh;          // the first number that has not left in its order
    std::uint64_t split;          // from this number on a gap fill has one number alone
    std::uint64_t first_test;     // the first TestRequest of this connection,
    std::uint64_t last_test;      // and the last,
    std::uint64_t test_since;     // and the moment at which it left
    std::uint64_t overtook;       // the last TestRequest that left before lower numbers had
    std::uint64_t settling_since; // the moment from which the sixty seconds of settling count
    bool is_settled;              // the firm has answered, and no later TestRequest overtook
    bool is_held;                 // `fresh` is a 35=3, and waits for that answer
    bool is_asked;                // a TestRequest for silence is due, or not answered
    bool is_test_due;             // a TestRequest is to leave
    bool is_request_due;          // a ResendRequest is to leave, where `gap` is not 0
};

// A connection that waits to have the session (row 3).
struct Waiting {
    std::uint64_t connection; // its name
    std::uint64_t since;      // the moment at which its Logon came
    bool is_alive;            // something came on the old connection since then
};

// A session. Its caller makes it by `fix_sessions_new`, or of what was kept of a day: then `phase`
// is 0, and `waits` is false.
struct SessionState {
    Day day;
    std::uint32_t phase;      // 1: logged on by `line`. 2: a Logout has left. Else away
    Line line;                // the connection of phase 1
    std::uint64_t connection; // in phase 2: on which that Logout has left,
    std::uint64_t since;      // and the moment; else 0
    bool waits;               // a connection waits:
    Waiting waiting;          // this one; else 0
};

// A message of a turn.
struct Sent {
    std::uint64_t number; // MsgSeqNum (34), or 0 where there is none
    std::size_t len;      // how many bytes leave
    bool is_kept;         // it is kept under its number
};

// What one event did.
struct Told {
    std::uint64_t connection; // on which messages leave, and which ends
    Sent first, second;       // what leaves first, or is kept; and what leaves behind it
    std::size_t kept_len;     // of the frame that is kept under the first one's number
    std::uint64_t takes;      // the venue is given the message that came under this number, or 0
    bool drops_rejects;       // the session's 35=3 and 35=j are kept no longer
    std::uint32_t ending;     // 0 it stands, 1 it ends, 2 with the firm's Logout or in two seconds
    // 0 nothing, 1 wrong credentials, 2 a Logon was refused, 3 the engine has lost its store, 4 the
    // firm sent a Reject, 5 an old connection was dead.
    std::uint32_t notice;
};

// What is found in a stream.
struct FoundNext {
    std::size_t skip;   // so many bytes are garbled
    std::uint32_t kind; // behind them: 0 no whole message, 1 a message, 2 65,536 bytes of a longer
    std::size_t len;    // of that message
};

// How long the texts of a Logon are that a question copies, one behind the other.
struct Asked {
    std::size_t firm, venue, desk, username, password;
};

// What a session asks for.
struct Wanted {
    // 0 nothing, 1 what is kept under a number, which leaves again, 2 the same for the first time,
    // 3 a tick, 4 the Logon of a connection once more.
    std::uint32_t kind;
    std::uint64_t number;
};

using Bytes = const std::uint8_t *;

// The session of a day that begins.
void fix_sessions_new(SessionState *);

// A message came on a connection: all of its bytes, and no more. `is_known`: the credentials of its
// question are right. `is_denied`: the gateway does not take it, for the reason (380), the name of
// what it is about (379, or none) and the text (58, 1 to 200 bytes) that follow.
bool fix_sessions_came(SessionState *, Bytes firm, std::size_t, Bytes venue, std::size_t,
                       Bytes desk, std::size_t, Bytes date, std::size_t, std::uint32_t moment,
                       std::uint64_t connection, Bytes bytes, std::size_t, bool is_known,
                       bool is_denied, std::uint64_t reason, Bytes id, std::size_t, Bytes text,
                       std::size_t, std::uint8_t *out, std::size_t, Told *);

// The venue gives a message: its frame, of which MsgType (35) and what stands behind the session's
// header count.
bool fix_sessions_given(SessionState *, Bytes firm, std::size_t, Bytes venue, std::size_t,
                        Bytes desk, std::size_t, Bytes date, std::size_t, std::uint32_t moment,
                        Bytes frame, std::size_t, std::uint8_t *out, std::size_t, Told *);

// What is kept under the number that the session asks for, first sent at a moment; or with no bytes
// that nothing is. `next_kept`: the next number under which something is kept.
bool fix_sessions_hands(SessionState *, Bytes firm, std::size_t, Bytes venue, std::size_t,
                        Bytes desk, std::size_t, Bytes date, std::size_t, std::uint32_t moment,
                        std::uint64_t next_kept, Bytes frame, std::size_t, std::uint32_t first,
                        bool is_copy, std::uint8_t *out, std::size_t, Told *);

// Time passes.
bool fix_sessions_tick(SessionState *, Bytes firm, std::size_t, Bytes venue, std::size_t,
                       Bytes desk, std::size_t, Bytes date, std::size_t, std::uint32_t moment,
                       std::uint8_t *out, std::size_t, Told *);

// An operator orders something: 0 open, 1 close, 2 suspend, 3 resume, 4 release, 5 reset, with so
// many copies.
bool fix_sessions_ordered(SessionState *, Bytes firm, std::size_t, Bytes venue, std::size_t,
                          Bytes desk, std::size_t, Bytes date, std::size_t, std::uint32_t moment,
                          std::uint32_t kind, std::uint64_t copies, std::uint8_t *out, std::size_t,
                          Told *);

// The gateway logs the firm out, with a text of 1 to 200 bytes.
bool fix_sessions_log_out(SessionState *, Bytes firm, std::size_t, Bytes venue, std::size_t,
                          Bytes desk, std::size_t, Bytes date, std::size_t, std::uint32_t moment,
                          Bytes text, std::size_t, std::uint8_t *out, std::size_t, Told *);

// A connection is gone.
void fix_sessions_gone(SessionState *, std::uint64_t connection);

// Finds the first message of a stream.
void fix_sessions_next(Bytes bytes, std::size_t, FoundNext *);

// What the first message of a connection asks for. False where it is no Logon that can be read.
bool fix_sessions_question(Bytes bytes, std::size_t, std::uint8_t *out, std::size_t, Asked *);

// Whether bytes are a Logout.
bool fix_sessions_is_logout(Bytes bytes, std::size_t);

// What a session asks for.
void fix_sessions_wants(const SessionState *, Wanted *);

// Whether a connection ends on which no whole message came since that moment; and one on which a
// Logout left at that moment that refused a Logon.
bool fix_sessions_is_first_late(std::uint64_t since, Bytes date, std::size_t, std::uint32_t moment);
bool fix_sessions_is_parting_over(std::uint64_t since, Bytes date, std::size_t,
                                  std::uint32_t moment);

// A venue's message as the wire has it: a frame that `given` takes. `appl_number`: the frame's 34,
// which becomes ApplSeqNum (1181). `ref`: the session's number for the 45 of a Reject, or 0.
// `told_tag`: 58 or 1003 with the text that follows, or 0.
bool fix_sessions_wire_out(Bytes frame, std::size_t, std::uint32_t appl_number, std::uint64_t ref,
                           std::uint32_t told_tag, Bytes told, std::size_t, std::uint8_t *out,
                           std::size_t, std::size_t *written);

// A firm's message as the venue is given it, under a number.
bool fix_sessions_wire_in(Bytes bytes, std::size_t, std::uint32_t number, std::uint8_t *out,
                          std::size_t, std::size_t *written);
}

#endif
