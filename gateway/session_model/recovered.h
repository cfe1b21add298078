// Recovers a firm's session from what is sealed: the second implementation of the function of
// docs/RECOVERY.md. It is pure, and uses nothing of the gateway.
#ifndef SESSION_MODEL_RECOVERED_H
#define SESSION_MODEL_RECOVERED_H

#include <array>
#include <cstdint>
#include <map>
#include <stdexcept>
#include <string>
#include <vector>

namespace session_model {

using Number = std::uint64_t;
using Hash = std::array<unsigned char, 32>;

// An entry of the firm that bears a number of the session.
struct RecoveredEntry {
    Number place = 0;
    Number number = 0;
};

// What an operator did to the session.
enum class ActKind { suspend, resume, release, reset };
struct RecoveredAct {
    Number place = 0;
    ActKind kind = ActKind::suspend;
};

// A message that the venue gives: the running hash with it, and the moment of its entry.
struct RecoveredMessage {
    Hash hash{};
    Number moment = 0;
};

// A session note, as its line says it; moments and times are milliseconds, both counted alike.
struct RecoveredNote {
    char kind = 'M';
    Number epoch = 0, number = 0, expected = 0, had = 0, given = 0;
    Hash hash{};
    Number moment = 0;
    Number last_logon = 0;  // of A
    bool resets = false;    // of A
    std::string fields{};   // of 3 and j
    bool is_locked = false; // of L
    Number last = 0;        // of R
    Number act = 0;         // of R, and of L that releases
};

// What is kept under a number: a message of the venue, or a Reject or BusinessMessageReject.
struct RecoveredKept {
    Number given = 0; // which message of the venue; 0 of one of the session's own
    char kind = 'V';  // 3 or j of one of the session's own
    std::string fields{};
    Number first = 0; // when it was sent first
    bool is_copy = false;

    bool operator==(const RecoveredKept &) const = default;
};

// A session as far as it is recovered, but for what it keeps.
struct RecoveredNumbers {
    Number epoch = 0; // how often an operator has reset it,
    Number since = 0; // and the last place of an entry then
    Number act = 0;   // the last act that a note has named
    Number given = 0; // messages that the venue gave,
    Hash hash{};      // and their running hash
    Number taken = 0; // the number of the last entry behind `since`
    Number expected = 1, next = 2, had = 0;
    Number first_given = 0, last_given = 0, last_kept = 0;
    bool is_one_free = true, was_taken = false, is_reset = false, is_locked = false;
    bool is_suspended = false;
    Number reset_at = 0, last_logon = 0;
};

// The same, and what it keeps.
struct RecoveredSession : RecoveredNumbers {
    std::map<Number, RecoveredKept> kept{};
};

// What does not fit: the log is not what a gateway has written.
class NotRecovered : public std::runtime_error {
  public:
    explicit NotRecovered(const std::string &what, std::uint32_t number = 0)
        : std::runtime_error(what), code(number) {}

    const std::uint32_t code; // as gateway/src/recovery/session_recovery.h numbers them
};

// The fold, step by step: what is kept under a number is the caller's to keep, and what act stands
// at a place the caller's to look up. Each throws NotRecovered that says why it does not fit.

// The venue's next message, with the running hash up to it. Returns the number under which it is
// kept; 0 where the session has none left.
Number after_message(RecoveredNumbers &session, const Hash &hash);
// A note, once the venue's messages have their numbers that it names. copies is, of R, how many of
// the venue's messages are kept above its `had`.
void after_note(RecoveredNumbers &session, const RecoveredNote &note, Number copies);
// Behind all notes and messages: an entry of the firm.
void after_entry(RecoveredNumbers &session, const RecoveredEntry &entry);

// All of it. Each list in its order; acts those on this firm's session. Throws NotRecovered that
// says which note or entry does not fit, and why.
RecoveredSession recovered(const std::vector<RecoveredEntry> &entries,
                           const std::vector<RecoveredAct> &acts,
                           const std::vector<RecoveredMessage> &messages,
                           const std::vector<RecoveredNote> &notes);

} // namespace session_model

#endif
