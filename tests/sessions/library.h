// The libraries that have the calls of a session: the proved one, where it is built, and the second
// implementation.
#ifndef SESSIONS_LIBRARY_H
#define SESSIONS_LIBRARY_H

#include "fix_sessions.h"

#include <vector>

namespace sessions {

// One library's calls.
struct Library {
    const char *name;
    decltype(&fix_sessions_new) begin;
    decltype(&fix_sessions_came) came;
    decltype(&fix_sessions_given) given;
    decltype(&fix_sessions_hands) hands;
    decltype(&fix_sessions_tick) tick;
    decltype(&fix_sessions_ordered) ordered;
    decltype(&fix_sessions_log_out) log_out;
    decltype(&fix_sessions_gone) gone;
    decltype(&fix_sessions_next) next;
    decltype(&fix_sessions_question) question;
    decltype(&fix_sessions_is_logout) is_logout;
    decltype(&fix_sessions_wants) wants;
    decltype(&fix_sessions_is_first_late) is_first_late;
    decltype(&fix_sessions_is_parting_over) is_parting_over;
    decltype(&fix_sessions_wire_out) wire_out;
    decltype(&fix_sessions_wire_in) wire_in;
};

const Library &proved_library();
const Library &model_library();

// Those that this program has: each call is made of all of them, and all have to say the same.
const std::vector<const Library *> &libraries();

} // namespace sessions

// The calls under the names that fix_sessions.h gives them in a file.
#define SESSION_CALLS                                                                              \
    fix_sessions_new, fix_sessions_came, fix_sessions_given, fix_sessions_hands,                   \
        fix_sessions_tick, fix_sessions_ordered, fix_sessions_log_out, fix_sessions_gone,          \
        fix_sessions_next, fix_sessions_question, fix_sessions_is_logout, fix_sessions_wants,      \
        fix_sessions_is_first_late, fix_sessions_is_parting_over, fix_sessions_wire_out,           \
        fix_sessions_wire_in

#endif
