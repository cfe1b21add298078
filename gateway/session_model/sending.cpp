#include "sending.h"

#include "acts.h"
#include "bodies.h"
#include "settling.h"

#include <algorithm>
#include <utility>

namespace session_model {

namespace {

enum Want : std::uint32_t { NOTHING, AGAIN, FRESH, TICK, LOGON };

Wanted wanted_on(const SessionState &session) {
    const Line &line = session.line;
    if (line.again < line.again_end) {
        return {AGAIN, line.again};
    }
    if (line.is_held) {
        return {line.is_test_due ? TICK : NOTHING, 0};
    }
    if (line.fresh < session.day.next) {
        return {FRESH, line.fresh};
    }
    const bool is_due = line.is_test_due || (line.is_request_due && line.gap != 0);
    return {is_due ? TICK : NOTHING, 0};
}

// An answer to a TestRequest is not sent again.
bool is_sent_again(const Stored &stored) {
    return stored.body.type != "0";
}

// Where a gap fill ends: before what is kept next, or behind the one answer that is not sent again.
std::uint64_t fill_end(const Line &line, std::uint64_t next_kept, bool is_kept) {
    const std::uint64_t one = line.again + 1;
    return is_kept ? one : std::max(one, std::min({next_kept, line.again_end, line.split}));
}

// The numbers up to one, and not that one, have left again.
void went_again(Line &line, const Clock &clock, std::uint64_t to) {
    line.again = to;
    line.sent = clock.moment;
    if (to > line.fresh) {
        line.fresh = to;
        line.is_held = false;
    }
    const bool covers_test = 0 < line.last_test && line.last_test < to && line.again_end <= to;
    line.is_test_due = line.is_test_due || (!line.is_settled && covers_test);
}

// A message that was kept leaves again, or what is not kept is filled.
void hand_again(Turn &turn, const Clock &clock, std::uint64_t next_kept,
                std::optional<Stored> stored) {
    Line &line = turn.session.line;
    Said said;
    said.number = line.again;
    std::uint64_t to = line.again + 1;
    if (stored && is_sent_again(*stored)) {
        said.body = std::move(stored->body);
        said.first = stored->first;
        said.is_copy = stored->is_copy;
    } else {
        to = fill_end(line, next_kept, stored.has_value());
        said.body = gap_fill(to);
        said.first = clock.moment;
    }
    went_again(line, clock, to);
    turn.say(std::move(said));
}

void hand_fresh(Turn &turn, const Clock &clock, std::optional<Stored> stored) {
    Line &line = turn.session.line;
    if (!stored) {
        ++line.fresh;
        return;
    }
    if (!may_leave(line, stored->body.type)) {
        line.is_held = true;
        return;
    }
    Said said;
    said.number = line.fresh;
    said.body = std::move(stored->body);
    said.is_copy = stored->is_copy;
    ++line.fresh;
    line.sent = clock.moment;
    turn.say(std::move(said));
}

} // namespace

void give(Turn &turn, const Clock &clock, Body body) {
    SessionState &session = turn.session;
    Day &day = session.day;
    if (is_used_up(session)) {
        return;
    }
    const bool leaves =
        session.phase == ON && is_clear(session) && may_leave(session.line, body.type);
    Said said;
    said.body = std::move(body);
    said.number = day.next++;
    said.way = leaves ? Way::kept_and_leaves : Way::kept;
    day.first_given = day.first_given == 0 ? said.number : day.first_given;
    day.last_given = said.number;
    day.last_kept = said.number;
    if (leaves) {
        session.line.fresh = day.next;
        session.line.sent = clock.moment;
    }
    turn.connection = session.line.connection;
    turn.say(std::move(said));
}

void hand(Turn &turn, const Clock &clock, std::uint64_t next_kept, std::optional<Stored> stored) {
    turn.connection = connection_of(turn.session);
    if (is_used_up(turn.session)) {
        disconnect(turn);
        return;
    }
    const Wanted wanted = wanted_by(turn.session);
    if (wanted.kind == AGAIN) {
        hand_again(turn, clock, next_kept, std::move(stored));
    } else if (wanted.kind == FRESH) {
        hand_fresh(turn, clock, std::move(stored));
    }
}

Wanted wanted_by(const SessionState &session) {
    if (session.phase == ON) {
        return wanted_on(session);
    }
    if (session.phase != LEAVING && session.waits) {
        return {LOGON, session.waiting.connection};
    }
    return {NOTHING, 0};
}

} // namespace session_model
