#include "orders.h"

#include "acts.h"
#include "reasons.h"

#include <algorithm>

namespace session_model {

namespace {

constexpr std::uint64_t FIRST_COPY = 2; // 1 is left for the answer to the first Logon

void reset(Turn &turn, const Clock &clock, std::uint64_t copies) {
    SessionState &session = turn.session;
    const Day before = session.day;
    Day day{};
    day.expected = 1;
    day.next = FIRST_COPY + std::min(copies, LAST_NUMBER);
    day.first_given = copies == 0 ? 0 : FIRST_COPY;
    day.last_given = copies == 0 ? 0 : day.next - 1;
    day.last_kept = day.last_given;
    day.is_one_free = true;
    day.is_reset = true;
    day.reset_at = instant_of(clock);
    day.is_open = before.is_open;
    day.is_suspended = before.is_suspended;
    session.day = day;
    turn.drops_rejects = true;
    turn.connection = connection_of(session);
    if (session.phase == ON || session.phase == LEAVING) {
        disconnect(turn);
    }
}

} // namespace

void log_out_by_gateway(Turn &turn, const Clock &clock, Text reason) {
    turn.connection = connection_of(turn.session);
    if (is_used_up(turn.session)) {
        disconnect(turn);
    } else if (turn.session.phase == ON) {
        log_out(turn, clock, reason);
    }
}

void obey(Turn &turn, const Clock &clock, Order order, std::uint64_t copies) {
    Day &day = turn.session.day;
    switch (order) {
    case Order::open:
        day.is_open = true;
        break;
    case Order::close:
        day.is_open = false;
        log_out_by_gateway(turn, clock, reasons::CLOSED);
        break;
    case Order::suspend:
        day.is_suspended = true;
        log_out_by_gateway(turn, clock, reasons::SUSPENDED);
        break;
    case Order::resume:
        day.is_suspended = false;
        break;
    case Order::release:
        day.is_locked = false;
        break;
    case Order::reset:
        reset(turn, clock, copies);
        break;
    }
}

} // namespace session_model
