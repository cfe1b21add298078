// A turn: the session after one event, and what the caller has to do for it.
#ifndef SESSION_MODEL_TURN_H
#define SESSION_MODEL_TURN_H

#include "fix_sessions.h"
#include "times.h"

namespace session_model {

// Whose session it is. Of one venue among several the desk is its TargetSubID (57).
struct Names {
    Text firm, venue, desk;
};

// A message behind the session's header: MsgType (35), and the fields.
struct Body {
    std::string type;
    std::string fields;
};

enum class Way { leaves, kept_and_leaves, kept };

// A message that the session says.
struct Said {
    Body body;
    std::uint64_t number = 0; // MsgSeqNum (34)
    Way way = Way::leaves;
    std::optional<std::uint32_t> first = {}; // it leaves again (43=Y): when it left first (122)
    bool is_copy = false;                    // PossResend (97) is Y
};

enum class Ending : std::uint32_t { stands, ends, parts };

enum class Notice : std::uint32_t { none, credentials, refused, lost_store, rejected, dead };

enum Phase : std::uint32_t { AWAY, ON, LEAVING };

struct Turn {
    explicit Turn(const SessionState &before) : session(before) {}

    SessionState session;
    std::uint64_t connection = 0;
    std::optional<Said> first, second;
    std::uint64_t takes = 0;
    bool drops_rejects = false;
    Ending ending = Ending::stands;
    Notice notice = Notice::none;

    void say(Said said) { (first ? second : first) = std::move(said); }
};

} // namespace session_model

#endif
