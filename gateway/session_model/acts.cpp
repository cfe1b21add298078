#include "acts.h"

#include "bodies.h"
#include "settling.h"

#include <utility>

namespace session_model {

namespace {

constexpr std::uint64_t MOST_OFF = 120 * SECOND;

std::uint64_t take_number(SessionState &session) {
    return session.day.next++;
}

Said said_now(SessionState &session, Body body, Way way) {
    Said said;
    said.body = std::move(body);
    said.number = take_number(session);
    said.way = way;
    return said;
}

// What has a number left, or was overtaken.
void has_left(SessionState &session, const Clock &clock) {
    session.line.fresh = session.day.next;
    session.line.sent = clock.moment;
}

} // namespace

std::uint64_t passed(std::uint64_t since, std::uint64_t now) {
    return now > since ? now - since : 0;
}

bool is_off(const Time &time, const Clock &clock) {
    const std::uint64_t one = instant_of(time);
    const std::uint64_t other = instant_of(clock);
    return passed(one, other) > MOST_OFF || passed(other, one) > MOST_OFF;
}

bool is_used_up(const SessionState &session) {
    const Day &day = session.day;
    const Line &line = session.line;
    const bool is_broken =
        session.phase == ON &&
        (line.fresh > day.next || line.again_end > day.next || line.overtook > day.next);
    return day.next > LAST_NUMBER || day.expected > LAST_NUMBER || is_broken;
}

bool is_clear(const SessionState &session) {
    const Line &line = session.line;
    return line.again >= line.again_end && line.fresh == session.day.next;
}

std::uint64_t connection_of(const SessionState &session) {
    return session.phase == ON ? session.line.connection : session.connection;
}

void go_away(SessionState &session) {
    session.phase = AWAY;
    session.line = Line{};
    session.connection = 0;
    session.since = 0;
}

void something_came(SessionState &session) {
    session.waiting.is_alive = session.waits;
}

void end_waiting(SessionState &session, std::uint64_t connection) {
    if (session.waits && session.waiting.connection == connection) {
        session.waits = false;
        session.waiting = Waiting{};
    }
}

void disconnect(Turn &turn) {
    turn.ending = Ending::ends;
    go_away(turn.session);
}

void count(SessionState &session, const Clock &clock) {
    expect(session, clock, session.day.expected + 1);
}

void count_if_expected(SessionState &session, const Clock &clock, const Incoming &message) {
    if (message.number() == session.day.expected) {
        count(session, clock);
    }
}

void expect(SessionState &session, const Clock &clock, std::uint64_t number) {
    session.day.expected = number;
    Line &line = session.line;
    line.gap = number <= line.gap ? line.gap : 0;
    line.gap_since = clock.moment;
}

void send(Turn &turn, const Clock &clock, Body body) {
    turn.say(said_now(turn.session, std::move(body), Way::leaves));
    has_left(turn.session, clock);
}

void answer(Turn &turn, const Clock &clock, Body body) {
    if (is_clear(turn.session)) {
        send(turn, clock, std::move(body));
        return;
    }
    turn.say(said_now(turn.session, std::move(body), Way::kept));
}

void refuse(Turn &turn, const Clock &clock, Body body) {
    const bool is_session_level = body.type == "3";
    const bool leaves =
        is_clear(turn.session) && (turn.session.line.is_settled || !is_session_level);
    const Way way = leaves ? Way::kept_and_leaves : Way::kept;
    turn.say(said_now(turn.session, std::move(body), way));
    turn.session.day.last_kept = turn.session.day.next - 1;
    if (leaves) {
        has_left(turn.session, clock);
    }
}

void test(Turn &turn, const Clock &clock) {
    SessionState &session = turn.session;
    Line &line = session.line;
    const std::uint64_t number = session.day.next;
    turn.say(said_now(session, test_request(number), Way::leaves));
    if (line.fresh == number) {
        line.fresh = number + 1;
    } else {
        line.overtook = number;
    }
    line.sent = clock.moment;
    if (line.first_test == 0) {
        line.first_test = number;
    }
    line.last_test = number;
    line.test_since = clock.moment;
    line.is_test_due = false;
}

void log_out(Turn &turn, const Clock &clock, Text reason) {
    SessionState &session = turn.session;
    if (!session.line.is_settled || !is_clear(session)) {
        disconnect(turn);
        return;
    }
    const std::uint64_t connection = session.line.connection;
    send(turn, clock, logout(reason));
    go_away(session);
    session.phase = LEAVING;
    session.connection = connection;
    session.since = clock.moment;
}

void reject(Turn &turn, const Clock &clock, const Incoming &message, Fault fault) {
    refuse(turn, clock, reject_of(message, fault));
    count_if_expected(turn.session, clock, message);
}

void reject_and_log_out(Turn &turn, const Clock &clock, const Incoming &message, Fault fault,
                        Text reason) {
    reject(turn, clock, message, fault);
    if (turn.session.line.is_settled) {
        log_out(turn, clock, reason);
    }
}

void log_out_for(Turn &turn, const Clock &clock, const Incoming &message, Text reason) {
    count_if_expected(turn.session, clock, message);
    log_out(turn, clock, reason);
}

} // namespace session_model
