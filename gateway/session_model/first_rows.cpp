#include "first_rows.h"

#include "acts.h"
#include "logons.h"

namespace session_model {

namespace {

// Row 1: it is no Logon of this session.
bool is_no_logon(const Event &event) {
    const Fields &fields = event.message.fields;
    const Text desk = event.names.desk;
    return !is_logon(event.message) || !fields.is(tag::SenderCompID, event.names.firm) ||
           !fields.is(tag::TargetCompID, event.names.venue) ||
           (!desk.empty() && !fields.is(tag::TargetSubID, desk));
}

// Row 3: a TestRequest is due on the connection that has the session.
void ask_old(Turn &turn, const Event &event) {
    SessionState &session = turn.session;
    if (session.waits) {
        if (session.waiting.connection != event.connection) {
            turn.ending = Ending::ends;
        }
        return;
    }
    session.waits = true;
    session.waiting = Waiting{event.connection, event.clock.moment, false};
    if (session.phase == ON) {
        session.line.is_asked = true;
        session.line.is_test_due = true;
    }
}

} // namespace

void judge_first(Turn &turn, const Event &event) {
    if (is_no_logon(event)) {
        turn.ending = Ending::ends;
    } else if (!event.is_known) {
        turn.notice = Notice::credentials;
        turn.ending = Ending::ends;
    } else if (turn.session.phase != AWAY) {
        ask_old(turn, event);
    } else {
        end_waiting(turn.session, event.connection);
        judge_logon(turn, event);
    }
}

} // namespace session_model
