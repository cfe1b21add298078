// Recovers a firm's session from what is sealed, as C++ calls it: docs/RECOVERY.md has the rules,
// and crates/session_recovery_c is proved to do what its definitions say.
//
// The recovered session is a struct of the caller's. Each call takes it one step further, or leaves
// it as it was and says why. No call takes memory or keeps a pointer.
#ifndef GATEWAY_RECOVERY_SESSION_RECOVERY_H
#define GATEWAY_RECOVERY_SESSION_RECOVERY_H

#include "session/fix_sessions.h"

#include <cstdint>

extern "C" {

// A running hash: its 32 bytes as they stand in memory. They are only compared.
struct RunningHash {
    std::uint64_t first, second, third, fourth;
};

// A firm's session as far as it is recovered. A time counts as in Day.
struct Recovered {
    std::uint64_t epoch; // how often an operator has reset it,
    std::uint64_t since; // and the last place of an entry before the last reset, or 0
    std::uint64_t act;   // the place of the last act that a note has named, or 0
    std::uint64_t given; // messages that the venue gave, those without a number too,
    RunningHash hash;    // and their running hash
    std::uint64_t taken; // the number of the firm's last entry that counts, or 0
    Day day;             // is_open and is_suspended are false
};

// The numbers of a note's line. What its kind has not is 0 and false.
struct NoteNumbers {
    std::uint64_t epoch, number, expected, had, given;
    RunningHash hash;
    std::uint64_t moment;     // as a time: midnight of the session's day and MOMENT
    std::uint64_t last_logon; // of A: LOGON
    std::uint64_t last;       // of R: LAST
    std::uint64_t act;        // of R, and of L that releases: ACT
    std::uint32_t kind;       // KIND, a byte
    bool resets;              // of A: Y
    bool is_locked;           // of L: locked
};

// Why a step is not taken. 0: it is taken.
enum RecoveryFault : std::uint32_t {
    recovery_goes_on = 0,
    recovery_other_epoch = 1,    // EPOCH is not the session's
    recovery_other_given = 2,    // GIVEN is not how many messages were given
    recovery_other_hash = 3,     // HASH is not theirs
    recovery_other_number = 4,   // NUMBER is not the one that is due
    recovery_had_falls = 5,      // HAD is below the session's
    recovery_expected_falls = 6, // EXPECTED is below the session's, or is not 2 in A with Y
    recovery_act_again = 7,      // ACT or LAST is not behind what was named before
    recovery_not_behind = 8,     // the number of an entry is not behind that of the entry before
    recovery_too_far = 9,        // a number beyond all that a session uses
    recovery_no_kind = 10,       // KIND is none
};

// Before anything was said.
void session_recovery_begin(Recovered *);

// The venue's next message: the running hash with it. It has the number that `day.next` was before
// the call, where `day.next` is one more behind it; else it has none.
std::uint32_t session_recovery_message(Recovered *, const RunningHash *);

// The next note, once the messages up to its GIVEN were given. `copies`, of R: how many messages of
// the venue are kept above its HAD; these have the numbers from 2 on after the call.
std::uint32_t session_recovery_note(Recovered *, const NoteNumbers *, std::uint64_t copies);

// Behind all notes, and all messages: the next entry of the firm, by its place and its number (34).
std::uint32_t session_recovery_entry(Recovered *, std::uint64_t place, std::uint64_t number);
}

#endif
