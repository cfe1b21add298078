#include "later_rows.h"

#include "acts.h"
#include "reasons.h"
#include "resends.h"
#include "settling.h"

namespace session_model {

namespace {

// A row: true where it holds, and then it has decided.
using Row = bool (*)(Turn &turn, const Event &event);

const Fields &fields_of(const Event &event) {
    return event.message.fields;
}

bool is_type(const Event &event, Text type) {
    return event.message.type() == type;
}

std::optional<Time> time_at(const Event &event, std::uint32_t tag) {
    const std::optional<Text> text = fields_of(event).value(tag);
    return text ? time_in(*text) : std::nullopt;
}

// That a time is missing, or is none.
std::optional<Fault> time_fault(const Event &event, std::uint32_t tag) {
    if (!fields_of(event).has(tag)) {
        return Fault{tag, reason::Missing};
    }
    return time_at(event, tag) ? std::nullopt : std::optional(Fault{tag, reason::WrongFormat});
}

bool is_sent_before_it_was(const Event &event) {
    const std::optional<Time> original = time_at(event, tag::OrigSendingTime);
    const std::optional<Time> sent = time_at(event, tag::SendingTime);
    return original && sent && instant_of(*original) > instant_of(*sent);
}

bool is_too_long(Turn &turn, const Event &event) {
    if (event.message.kind != Incoming::Kind::too_long) {
        return false;
    }
    log_out_for(turn, event.clock, event.message, reasons::TOO_LONG);
    return true;
}

// Row 1.
bool is_other_version(Turn &turn, const Event &event) {
    if (event.message.kind != Incoming::Kind::other_version) {
        return false;
    }
    log_out_for(turn, event.clock, event.message, reasons::other_version(event.message.version));
    return true;
}

// Row 2.
bool is_garbled(Turn &, const Event &event) {
    return event.message.kind == Incoming::Kind::garbled;
}

// Row 3.
bool is_reset_mode(Turn &turn, const Event &event) {
    const std::optional<Text> mode = fields_of(event).value(tag::GapFillFlag);
    if (!is_type(event, "4") || (mode && *mode != "N")) {
        return false;
    }
    const std::optional<std::uint32_t> next = fields_of(event).number(tag::NewSeqNo);
    const std::uint64_t expected = turn.session.day.expected;
    if (!fields_of(event).has(tag::NewSeqNo)) {
        reject(turn, event.clock, event.message, {tag::NewSeqNo, reason::Missing});
    } else if (!next) {
        reject(turn, event.clock, event.message, {tag::NewSeqNo, reason::WrongFormat});
    } else if (*next < expected) {
        reject(turn, event.clock, event.message, {tag::NewSeqNo, reason::WrongValue});
    } else if (*next > expected) {
        expect(turn.session, event.clock, *next);
    }
    return true;
}

// Row 4.
bool has_no_number(Turn &turn, const Event &event) {
    if (event.message.number()) {
        return false;
    }
    log_out(turn, event.clock, reasons::NO_NUMBER);
    return true;
}

// Row 5.
bool is_anothers(Turn &turn, const Event &event) {
    const bool is_firms = fields_of(event).is(tag::SenderCompID, event.names.firm);
    if (is_firms && fields_of(event).is(tag::TargetCompID, event.names.venue)) {
        return false;
    }
    const std::uint32_t wrong = is_firms ? tag::TargetCompID : tag::SenderCompID;
    reject_and_log_out(turn, event.clock, event.message, {wrong, reason::CompID},
                       reasons::OTHER_NAME);
    return true;
}

// Row 6.
bool is_above(Turn &turn, const Event &event) {
    const std::uint64_t number = *event.message.number();
    if (number <= turn.session.day.expected) {
        return false;
    }
    if (is_type(event, "5")) {
        part(turn, event.clock);
        return true;
    }
    note_gap(turn.session.line, number);
    if (is_type(event, "2")) {
        resend(turn, event.clock, event.message);
    }
    return true;
}

// Row 7.
bool is_below(Turn &turn, const Event &event) {
    if (*event.message.number() >= turn.session.day.expected) {
        return false;
    }
    if (!event.message.is_again()) {
        log_out(turn, event.clock, reasons::too_low(turn.session.day.expected));
    } else if (!fields_of(event).has(tag::OrigSendingTime)) {
        reject(turn, event.clock, event.message, {tag::OrigSendingTime, reason::Missing});
    } else if (is_sent_before_it_was(event)) {
        reject_and_log_out(turn, event.clock, event.message,
                           {tag::OrigSendingTime, reason::SendingTime}, reasons::SENDING_TIME);
    }
    return true;
}

// Row 8.
bool is_new_and_late(Turn &turn, const Event &event) {
    if (event.message.is_again()) {
        return false;
    }
    if (const std::optional<Fault> fault = time_fault(event, tag::SendingTime)) {
        reject(turn, event.clock, event.message, *fault);
        return true;
    }
    if (!is_off(*time_at(event, tag::SendingTime), event.clock)) {
        return false;
    }
    reject_and_log_out(turn, event.clock, event.message, {tag::SendingTime, reason::SendingTime},
                       reasons::SENDING_TIME);
    return true;
}

// What is wrong with the times of a message that may have been sent before.
std::optional<Fault> again_fault(const Day &day, const Event &event) {
    for (const std::uint32_t tag : {tag::SendingTime, tag::OrigSendingTime}) {
        if (const std::optional<Fault> fault = time_fault(event, tag)) {
            return fault;
        }
    }
    const Time original = *time_at(event, tag::OrigSendingTime);
    if (!is_of_day(original, event.clock) || instant_of(original) < day.reset_at) {
        return Fault{tag::OrigSendingTime, reason::WrongValue};
    }
    return std::nullopt;
}

// Row 9.
bool is_again_and_late(Turn &turn, const Event &event) {
    if (!event.message.is_again()) {
        return false;
    }
    if (const std::optional<Fault> fault = again_fault(turn.session.day, event)) {
        reject(turn, event.clock, event.message, *fault);
        return true;
    }
    if (!is_sent_before_it_was(event)) {
        return false;
    }
    reject_and_log_out(turn, event.clock, event.message,
                       {tag::OrigSendingTime, reason::SendingTime}, reasons::SENDING_TIME);
    return true;
}

// Row 10.
bool is_at_fault(Turn &turn, const Event &event) {
    const std::optional<Fault> fault = fault_of(event.message);
    if (!fault) {
        return false;
    }
    reject(turn, event.clock, event.message, *fault);
    return true;
}

// Row 11.
bool is_heartbeat_or_reject(Turn &turn, const Event &event) {
    const bool is_reject = is_type(event, "3");
    if (!is_type(event, "0") && !is_reject) {
        return false;
    }
    count(turn.session, event.clock);
    if (is_reject) {
        turn.notice = Notice::rejected;
    } else {
        take_answer(turn.session, event.message);
    }
    return true;
}

// Row 12.
bool is_test_request(Turn &turn, const Event &event) {
    if (!is_type(event, "1")) {
        return false;
    }
    const std::optional<Text> id = fields_of(event).value(tag::TestReqID);
    if (!id) {
        reject(turn, event.clock, event.message, {tag::TestReqID, reason::Missing});
        return true;
    }
    count(turn.session, event.clock);
    answer(turn, event.clock, heartbeat(id));
    return true;
}

// Row 13.
bool is_resend_request(Turn &turn, const Event &event) {
    if (!is_type(event, "2")) {
        return false;
    }
    if (resend(turn, event.clock, event.message)) {
        count(turn.session, event.clock);
    }
    return true;
}

// Row 14.
bool is_gap_fill(Turn &turn, const Event &event) {
    if (!is_type(event, "4")) {
        return false;
    }
    const std::optional<std::uint32_t> next = fields_of(event).number(tag::NewSeqNo);
    if (next && *next > *event.message.number()) {
        expect(turn.session, event.clock, *next);
        return true;
    }
    const std::uint32_t why = next ? reason::WrongValue : reason::Missing;
    reject(turn, event.clock, event.message, {tag::NewSeqNo, why});
    return true;
}

// Row 15.
bool is_logout(Turn &turn, const Event &event) {
    if (!is_type(event, "5")) {
        return false;
    }
    count(turn.session, event.clock);
    part(turn, event.clock);
    return true;
}

// Row 16.
bool is_second_logon(Turn &turn, const Event &event) {
    if (!is_type(event, "A")) {
        return false;
    }
    log_out_for(turn, event.clock, event.message, reasons::LOGGED_ON);
    return true;
}

// Row 17.
bool is_denied(Turn &turn, const Event &event) {
    if (!event.denial) {
        return false;
    }
    refuse(turn, event.clock, business_reject_of(event.message, *event.denial));
    count(turn.session, event.clock);
    return true;
}

// Row 18.
bool is_the_venues(Turn &turn, const Event &event) {
    turn.takes = turn.session.day.expected;
    turn.session.day.was_taken = true;
    count(turn.session, event.clock);
    return true;
}

constexpr Row ROWS[] = {
    is_too_long,     is_other_version,  is_garbled,    is_reset_mode,
    has_no_number,   is_anothers,       is_above,      is_below,
    is_new_and_late, is_again_and_late, is_at_fault,   is_heartbeat_or_reject,
    is_test_request, is_resend_request, is_gap_fill,   is_logout,
    is_second_logon, is_denied,         is_the_venues,
};

} // namespace

void judge_later(Turn &turn, const Event &event) {
    if (event.message.kind == Incoming::Kind::message) {
        turn.session.line.received = event.clock.moment;
        turn.session.line.is_asked = false;
        something_came(turn.session);
    }
    for (const Row row : ROWS) {
        if (row(turn, event)) {
            return;
        }
    }
}

} // namespace session_model
