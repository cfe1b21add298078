#include "logons.h"

#include "acts.h"
#include "reasons.h"
#include "settling.h"

#include <algorithm>

namespace session_model {

namespace {

constexpr Text NO_ENCRYPTION = "0"; // EncryptMethod (98)
constexpr Text VERSION = "9";       // DefaultApplVerID (1137): FIX 5.0 SP2
constexpr std::uint32_t MOST_HEARTBEAT = 300;

// What the rows ask of a Logon.
struct Logon {
    std::uint64_t number;
    bool is_reset;            // ResetSeqNumFlag (141) is Y
    std::optional<Time> sent; // SendingTime (52)
    bool has_next;            // NextExpectedMsgSeqNum (789)
    std::uint64_t next;       // 0 where it is none
};

Logon logon_of(const Event &event) {
    const Fields &fields = event.message.fields;
    const std::optional<Text> sent = fields.value(tag::SendingTime);
    return {*event.message.number(), fields.is(tag::ResetSeqNumFlag, "Y"),
            sent ? time_in(*sent) : std::nullopt, fields.has(tag::NextExpectedMsgSeqNum),
            fields.number(tag::NextExpectedMsgSeqNum).value_or(0)};
}

// The number of the answer to a Logon, or of a Logout before it.
std::uint64_t answer_number(const Day &day, bool is_reset) {
    return day.is_one_free || is_reset ? 1 : day.next;
}

bool is_of_now(const std::optional<Time> &sent, const Clock &clock) {
    return sent && is_of_day(*sent, clock) && !is_off(*sent, clock);
}

// Row 5.
std::optional<Text> wrong_terms(const Event &event, const Logon &logon) {
    const Fields &fields = event.message.fields;
    const std::uint32_t heartbeat = fields.number(tag::HeartBtInt).value_or(0);
    if (!fields.is(tag::EncryptMethod, NO_ENCRYPTION)) {
        return reasons::ENCRYPTION;
    }
    if (!fields.is(tag::DefaultApplVerID, VERSION)) {
        return reasons::VERSION;
    }
    if (heartbeat == 0 || heartbeat > MOST_HEARTBEAT) {
        return reasons::HEARTBEAT;
    }
    return is_of_now(logon.sent, event.clock) ? std::nullopt : std::optional(reasons::SENDING_TIME);
}

// Row 6.
bool may_not_reset(const Day &day, const Logon &logon) {
    const bool has_venues = day.first_given != 0 && day.had >= day.first_given;
    return logon.is_reset && (logon.number != 1 || day.was_taken || has_venues);
}

// Row 7.
bool is_below(const Day &day, const Logon &logon) {
    return !logon.is_reset && logon.number < day.expected;
}

// Row 7 of a Logon that came to it, and of one that row 4 or 5 refuses: the latter's time may be
// none, or off.
bool has_lost_store(const Event &event, const Day &day, const Logon &logon) {
    if (day.is_locked || !is_below(day, logon)) {
        return false;
    }
    return !is_of_now(logon.sent, event.clock) || instant_of(*logon.sent) > day.last_logon;
}

// Row 4.
std::optional<Text> closed_to(const Event &event, const Day &day) {
    if (day.is_open && !day.is_suspended && !event.denial) {
        return std::nullopt;
    }
    const Text own = day.is_open ? reasons::SUSPENDED : reasons::CLOSED;
    return event.denial ? event.denial->text : own;
}

// Rows 7 and 8.
std::optional<std::string> wrong_number(const Day &day, const Logon &logon) {
    if (day.is_locked) {
        return std::string(reasons::LOST_STORE);
    }
    if (day.is_reset && logon.number != 1) {
        return std::string(reasons::AFTER_RESET);
    }
    if (is_below(day, logon)) {
        return reasons::too_low(day.expected);
    }
    const bool is_past = logon.next > answer_number(day, logon.is_reset);
    if (logon.has_next && (logon.next == 0 || is_past)) {
        return std::string(reasons::NEXT_EXPECTED);
    }
    return std::nullopt;
}

// Why rows 4 to 8 refuse a Logon.
std::optional<std::string> refusal_of(const Event &event, const Logon &logon, const Day &day) {
    if (const std::optional<Text> closed = closed_to(event, day)) {
        return std::string(*closed);
    }
    if (const std::optional<Text> wrong = wrong_terms(event, logon)) {
        return std::string(*wrong);
    }
    if (may_not_reset(day, logon)) {
        return std::string(reasons::RESET);
    }
    return wrong_number(day, logon);
}

void refuse_logon(Turn &turn, const Event &event, const Logon &logon, Text why) {
    Day &day = turn.session.day;
    turn.notice = Notice::refused;
    if (has_lost_store(event, day, logon)) {
        day.is_locked = true;
        turn.notice = Notice::lost_store;
    }
    const bool is_safe = day.is_one_free || logon.is_reset || owes_nothing(day);
    if (!is_safe) {
        turn.ending = Ending::ends;
        return;
    }
    Said said;
    said.body = logout(why);
    said.number = day.is_one_free ? 1 : day.next++;
    day.is_one_free = false;
    turn.say(said);
    turn.ending = Ending::parts;
}

// The numbers that a Logon makes.
std::uint64_t take_answer_number(Day &day, const Logon &logon) {
    const std::uint64_t number = answer_number(day, logon.is_reset);
    if (number == day.next) {
        ++day.next;
    }
    day.is_one_free = false;
    return number;
}

// From which number on a gap fill has one number alone.
std::uint64_t split_at(const Day &day, std::uint64_t answered) {
    if (answered > 1) {
        return answered;
    }
    return day.next == 2 ? 1 : day.next;
}

void begin_line(Turn &turn, const Event &event, const Logon &logon, std::uint64_t answered) {
    SessionState &session = turn.session;
    const bool has_gap = logon.number > session.day.expected;
    session.phase = ON;
    Line line{};
    line.connection = event.connection;
    line.heartbeat = *event.message.fields.number(tag::HeartBtInt) * SECOND;
    line.received = line.sent = event.clock.moment;
    line.gap_since = line.test_since = line.settling_since = event.clock.moment;
    line.gap = has_gap ? logon.number : 0;
    line.again = logon.has_next ? std::min(logon.next, answered) : answered;
    line.again_end = answered;
    line.fresh = session.day.next;
    line.split = split_at(session.day, answered);
    line.is_test_due = true;
    line.is_request_due = has_gap && !logon.has_next;
    session.line = line;
}

void begin_day_anew(Turn &turn) {
    Day &day = turn.session.day;
    day.expected = 1;
    day.last_kept = day.last_given;
    turn.drops_rejects = true;
}

// Row 9.
void accept(Turn &turn, const Event &event, const Logon &logon) {
    SessionState &session = turn.session;
    Day &day = session.day;
    if (logon.is_reset) {
        begin_day_anew(turn);
    }
    const std::uint64_t answered = take_answer_number(day, logon);
    begin_line(turn, event, logon, answered);
    if (logon.number == day.expected) {
        ++day.expected;
    }
    day.is_reset = false;
    day.last_logon = instant_of(*logon.sent);
    something_came(session);
    LogonAnswer answer;
    answer.heartbeat = *event.message.fields.number(tag::HeartBtInt);
    answer.is_reset = logon.is_reset;
    if (logon.has_next) {
        answer.expected = day.expected;
    }
    Said said;
    said.body = session_model::logon(answer);
    said.number = answered;
    turn.say(said);
}

} // namespace

void judge_logon(Turn &turn, const Event &event) {
    const Logon logon = logon_of(event);
    if (const std::optional<std::string> why = refusal_of(event, logon, turn.session.day)) {
        refuse_logon(turn, event, logon, *why);
        return;
    }
    accept(turn, event, logon);
}

} // namespace session_model
