#include "events.h"

#include "acts.h"
#include "first_rows.h"

namespace session_model {

namespace {

bool has_session(const SessionState &session, std::uint64_t connection) {
    return (session.phase == ON || session.phase == LEAVING) &&
           connection_of(session) == connection;
}

// Behind a Logout nothing counts but the firm's own, which ends the connection.
void judge_parting(Turn &turn, const Event &event) {
    if (event.message.kind != Incoming::Kind::message || event.message.type() != "5") {
        return;
    }
    count_if_expected(turn.session, event.clock, event.message);
    disconnect(turn);
}

} // namespace

void came(Turn &turn, const Event &event) {
    const SessionState &session = turn.session;
    turn.connection = event.connection;
    if (is_used_up(session)) {
        turn.ending = Ending::ends;
        gone(turn.session, event.connection);
    } else if (!has_session(session, event.connection)) {
        judge_first(turn, event);
    } else if (session.phase == ON) {
        judge_later(turn, event);
    } else {
        judge_parting(turn, event);
    }
}

void gone(SessionState &session, std::uint64_t connection) {
    if (has_session(session, connection)) {
        go_away(session);
    } else {
        end_waiting(session, connection);
    }
}

} // namespace session_model
