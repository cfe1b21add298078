#include "ticking.h"

#include "acts.h"
#include "bodies.h"
#include "reasons.h"
#include "resends.h"

namespace session_model {

namespace {

constexpr std::uint64_t FIRST_MESSAGE = 10 * SECOND;
constexpr std::uint64_t PARTING = 2 * SECOND;
constexpr std::uint64_t OLD_CONNECTION = 2 * SECOND;
constexpr std::uint64_t LEAST_SILENCE = 6 * SECOND;
constexpr std::uint64_t AGAIN = 10 * SECOND;    // a TestRequest, or a ResendRequest
constexpr std::uint64_t SETTLING = 60 * SECOND; // without an answer

// What time does: true where it did something.
using Act = bool (*)(Turn &turn, const Clock &clock);

bool is_resending(const Line &line) {
    return line.again < line.again_end;
}

std::uint64_t silence_of(const Line &line, const Clock &clock) {
    return passed(line.received, clock.moment);
}

// Row 3 of the first message: a connection that has waited gets the session, or ends.
bool ends_old_or_new(Turn &turn, const Clock &clock) {
    SessionState &session = turn.session;
    if (!session.waits || passed(session.waiting.since, clock.moment) < OLD_CONNECTION) {
        return false;
    }
    if (session.waiting.is_alive) {
        turn.connection = session.waiting.connection;
        turn.ending = Ending::ends;
        session.waits = false;
        session.waiting = Waiting{};
        return true;
    }
    turn.notice = Notice::dead;
    disconnect(turn);
    return true;
}

// The firm had two seconds for its own Logout.
bool ends_parting(Turn &turn, const Clock &clock) {
    if (turn.session.phase != LEAVING) {
        return false;
    }
    if (passed(turn.session.since, clock.moment) >= PARTING) {
        disconnect(turn);
    }
    return true;
}

bool ends_unsettled(Turn &turn, const Clock &clock) {
    Line &line = turn.session.line;
    if (is_resending(line)) {
        line.settling_since = clock.moment;
    }
    if (line.is_settled || passed(line.settling_since, clock.moment) < SETTLING) {
        return false;
    }
    disconnect(turn);
    return true;
}

bool ends_silent(Turn &turn, const Clock &clock) {
    const Line &line = turn.session.line;
    const std::uint64_t silence = silence_of(line, clock);
    if (silence < LEAST_SILENCE || 5 * silence < 12 * line.heartbeat) {
        return false;
    }
    log_out(turn, clock, reasons::SILENT);
    disconnect(turn);
    return true;
}

// What time makes due.
void note_due(Line &line, const Clock &clock) {
    const bool is_silent = 5 * silence_of(line, clock) >= 6 * line.heartbeat;
    const bool is_again = !line.is_settled && line.last_test > 0 && !is_resending(line) &&
                          passed(line.test_since, clock.moment) >= AGAIN;
    line.is_test_due = line.is_test_due || (is_silent && !line.is_asked) || is_again;
    line.is_asked = line.is_asked || is_silent;
    line.is_request_due = line.is_request_due || passed(line.gap_since, clock.moment) >= AGAIN;
}

bool sends_test(Turn &turn, const Clock &clock) {
    const Line &line = turn.session.line;
    const bool overtakes = line.is_held && !is_resending(line);
    if (!line.is_test_due || !(is_clear(turn.session) || overtakes)) {
        return false;
    }
    test(turn, clock);
    return true;
}

bool sends_heartbeat(Turn &turn, const Clock &clock) {
    const Line &line = turn.session.line;
    if (passed(line.sent, clock.moment) < line.heartbeat || !is_clear(turn.session)) {
        return false;
    }
    send(turn, clock, heartbeat({}));
    return true;
}

bool sends_due(Turn &turn, const Clock &clock) {
    note_due(turn.session.line, clock);
    return request_missing(turn, clock) || sends_test(turn, clock) || sends_heartbeat(turn, clock);
}

// The first that has something to do does it.
constexpr Act ACTS[] = {ends_old_or_new, ends_parting, ends_unsettled, ends_silent, sends_due};

} // namespace

void tick(Turn &turn, const Clock &clock) {
    const SessionState &session = turn.session;
    turn.connection = connection_of(session);
    if (is_used_up(session)) {
        disconnect(turn);
        return;
    }
    if (session.phase != ON && session.phase != LEAVING) {
        return;
    }
    for (const Act act : ACTS) {
        if (act(turn, clock)) {
            return;
        }
    }
}

bool is_first_late(std::uint64_t since, std::uint64_t now) {
    return passed(since, now) >= FIRST_MESSAGE;
}

bool is_parting_over(std::uint64_t since, std::uint64_t now) {
    return passed(since, now) >= PARTING;
}

} // namespace session_model
