#include "resends.h"

#include "acts.h"
#include "bodies.h"

#include <algorithm>

namespace session_model {

namespace {

// Whether one of its numbers is there, and is one.
std::optional<Fault> number_fault(const Fields &fields, std::uint32_t tag) {
    if (!fields.has(tag)) {
        return Fault{tag, reason::Missing};
    }
    return fields.number(tag) ? std::nullopt : std::optional(Fault{tag, reason::WrongFormat});
}

// What is wrong with a ResendRequest; `last` is the highest number that has left.
std::optional<Fault> resend_fault(const Fields &fields, std::uint64_t last) {
    for (const std::uint32_t tag : {tag::BeginSeqNo, tag::EndSeqNo}) {
        if (const std::optional<Fault> fault = number_fault(fields, tag)) {
            return fault;
        }
    }
    const std::uint32_t begin = std::max(*fields.number(tag::BeginSeqNo), 1U);
    const std::uint32_t end = *fields.number(tag::EndSeqNo);
    if (begin > last) {
        return Fault{tag::BeginSeqNo, reason::WrongValue};
    }
    if (end != 0 && end < begin) {
        return Fault{tag::EndSeqNo, reason::WrongValue};
    }
    return std::nullopt;
}

std::uint64_t highest_that_left(const Line &line) {
    return line.overtook < line.fresh ? line.fresh - 1 : line.overtook;
}

} // namespace

void note_gap(Line &line, std::uint64_t number) {
    line.is_request_due = line.is_request_due || line.gap == 0;
    line.gap = std::max(line.gap, number);
}

bool request_missing(Turn &turn, const Clock &clock) {
    Line &line = turn.session.line;
    if (line.gap == 0 || !line.is_request_due || !is_clear(turn.session)) {
        return false;
    }
    line.gap_since = clock.moment;
    line.is_request_due = false;
    send(turn, clock, resend_request(turn.session.day.expected));
    return true;
}

void widen_resend(Line &line, std::uint64_t from, std::uint64_t end) {
    if (line.again >= line.again_end) {
        line.again = from;
        line.again_end = end;
        return;
    }
    line.again = std::min(line.again, from);
    line.again_end = std::max(line.again_end, end);
}

bool resend(Turn &turn, const Clock &clock, const Incoming &message) {
    Line &line = turn.session.line;
    const std::uint64_t last = highest_that_left(line);
    if (const std::optional<Fault> fault = resend_fault(message.fields, last)) {
        reject(turn, clock, message, *fault);
        return false;
    }
    const std::uint64_t begin = std::max(*message.fields.number(tag::BeginSeqNo), 1U);
    const std::uint64_t end = *message.fields.number(tag::EndSeqNo);
    widen_resend(line, begin, (end == 0 ? last : std::min(end, last)) + 1);
    return true;
}

void part(Turn &turn, const Clock &clock) {
    const SessionState &session = turn.session;
    if (session.line.is_settled && is_clear(session)) {
        send(turn, clock, logout({}));
    }
    disconnect(turn);
}

} // namespace session_model
