// One event of a session: its parts, and what it writes into the log.
#ifndef GATEWAY_SESSION_SESSION_EVENT_H
#define GATEWAY_SESSION_SESSION_EVENT_H

#include "base/digest.h"
#include "session/session_note.h"
#include "session/session_numbers.h"

#include <chrono>
#include <cstddef>
#include <cstdint>
#include <optional>
#include <string>
#include <string_view>
#include <vector>

namespace gateway {

// A message of the venue on its way to a firm.
struct Delivery {
    std::string session; // its name
    std::string firm;
    std::uint32_t number = 0;          // the venue's
    std::uint32_t place = 0;           // of the entry that it answers,
    std::uint32_t moment = 0;          // and its moment, in milliseconds of the day
    std::string frame;                 // the venue's
    std::string type;                  // 35
    std::string wire;                  // what is kept of it: 35, and all behind the
                                       // session's header, as a frame
    std::optional<std::string> told{}; // TAG=VALUE: the field that tells what is noted beside it
    Digest hash{}; // the running hash of the firm's messages with this one (docs/RECOVERY.md)
    std::chrono::steady_clock::time_point given{}; // when the venue gave it
};

// Where and when a firm's message came.
struct Receipt {
    std::uint32_t connection = 0;               // as logon_accepted() numbered it, never 0
    std::chrono::system_clock::time_point at{}; // when its last byte was read from the socket
};

// What a session keeps under a number.
struct KeptMessage {
    std::uint32_t number = 0;
    std::string type;        // 35
    std::string frame;       // as the session hands it over
    std::uint32_t first = 0; // of the venue's the moment of its entry, else when it was kept first,
                             // in milliseconds of the day
    bool is_copy = false;    // it had another number before an operator's reset
};

// What one event of a session puts into the log, in one transaction.
struct SessionEvent {
    SessionNumbers numbers;   // from now on
    std::uint32_t moment = 0; // in milliseconds of the session's day
    bool is_logged_on = false;
    // What the venue gives: it is kept, unless the session is over for the day. What is kept
    // without it is the session's own: a Reject, a BusinessMessageReject, or an answer that waits.
    const Delivery *given = nullptr;
    std::optional<KeptMessage> kept;
    bool drops_rejects = false;       // those that are kept are kept no longer
    std::vector<SessionNote> notes{}; // in their order
    // Messages of the session's own, among these notes, that a firm may have only so many of.
    std::size_t replies = 0;
};

// A message that a session gives to the venue.
struct SessionInput {
    std::string_view bytes;   // as it came
    std::uint32_t number = 0; // the session's
    Receipt receipt;
};

// What becomes of it.
struct Taken {
    enum class Verdict {
        taken,  // it is in the log's next batch, with the event
        waits,  // nothing was done: the log has no room, or it is another's turn
        denied, // nothing was done: it is answered, and not taken
    };
    Verdict verdict = Verdict::taken;
    std::uint32_t reason = 0; // 380
    std::string id;           // 379
    std::string text;         // 58
};

} // namespace gateway

#endif
