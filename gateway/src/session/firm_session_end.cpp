// How a session's connections end: by its own rules, by the gateway, or by an operator.
#include "session/firm_session.h"
#include "session/own_fields.h"
#include "session/transport.h"

#include <utility>

namespace gateway {

namespace {

// Of a Logout.
constexpr std::size_t longest_reason = 200;

bool is_on(const SessionState &state) {
    return state.phase == Machine::phase_on;
}

// Why a connection ends, for the log and the operator: in the session's own words, where it has
// said them.
std::string why_it_ends(const MachineTurn &turn) {
    for (const std::string_view frame : {turn.second, turn.first}) {
        if (own_fields::value_in(frame, own_fields::msg_type) == "5") {
            const std::string_view text = own_fields::value_in(frame, own_fields::text);
            return text.empty() ? std::string("the firm has logged out") : std::string(text);
        }
    }
    return turn.told.notice == static_cast<std::uint32_t>(Notice::dead)
               ? "nothing came on it, and another one waits"
               : "by the rules of the session, without a word";
}

} // namespace

void FirmSession::end_as_told(const MachineTurn &turn) {
    Visitor *const of = visitor(turn.told.connection);
    if (of == nullptr) {
        return;
    }
    if (turn.told.ending == static_cast<std::uint32_t>(Ending::ends)) {
        end(*of, why_it_ends(turn));
    } else if (turn.told.ending == static_cast<std::uint32_t>(Ending::parts)) {
        of->parts = true;
        of->parts_since = moment_;
        of->why = why_it_ends(turn);
    } else if (!is_on(machine_.state()) && machine_.has(turn.told.connection)) {
        // A Logout was sent: why, if it had a reason.
        of->why = turn.first.empty() || !of->why.empty() ? of->why : why_it_ends(turn);
    }
}

// Before another connection may have the session: of each firm one is open in the log at most.
void FirmSession::end(Visitor &ended, const std::string &why) {
    if (ended.is_over) {
        return;
    }
    ended.is_over = true;
    if (ended.why.empty()) {
        ended.why = why;
    }
    const std::uint32_t number = std::exchange(ended.number, 0);
    if (number != 0) {
        host_.connection_ended(names_.firm, number, "the session ended it: " + ended.why);
    }
    ended.transport->wake();
}

// Who was refused with a Logout, and has had its time to answer.
void FirmSession::end_parted() {
    for (auto &[connection, of] : visitors_) {
        if (of.parts && is_parting_over(names_.date, of.parts_since, moment_now())) {
            end(of, "its Logon was refused");
        }
    }
}

void FirmSession::log_out(const std::string &reason) {
    const std::lock_guard lock(mutex_);
    machine_.log_out(begin(), std::string_view(reason).substr(0, longest_reason));
    note_why(reason);
    carry_out(nullptr);
}

// Why the connection ends that has the session, where it is not told.
void FirmSession::note_unsaid() {
    Visitor *const has = holder();
    if (has != nullptr && has->why.empty() && machine_.turn().first.empty() &&
        machine_.turn().told.ending == static_cast<std::uint32_t>(Ending::ends)) {
        has->why = machine_.unsaid(moment_, machine_.state().line.connection, message_);
    }
}

// Why the connection that has the session ends, if it does.
void FirmSession::note_why(const std::string &why) {
    if (Visitor *const has = holder()) {
        has->why = why;
    }
}

void FirmSession::order(Order order) {
    const std::lock_guard lock(mutex_);
    machine_.ordered(begin(), order);
    if (order == Order::suspend) {
        note_why("an operator has suspended the firm");
    }
    carry_out(nullptr);
}

// Its note says that the act is carried out, whether the session was locked or not: a start carries
// out what stands behind it.
void FirmSession::release_firm(std::uint32_t act) {
    const std::lock_guard lock(mutex_);
    machine_.ordered(begin(), Order::release);
    SessionEvent event = event_of(nullptr);
    event.notes.push_back(note_of_act(session_notes::lock, act));
    carry_out(std::move(event));
}

SessionNote FirmSession::note_of_act(char kind, std::uint32_t act) const {
    SessionNote note;
    note.kind = kind;
    note.moment = moment_;
    note.act = act;
    return note;
}

void FirmSession::reset(std::uint32_t act) {
    const std::lock_guard lock(mutex_);
    const std::uint32_t had = machine_.numbers().had;
    machine_.ordered(begin(), Order::reset, host_.count_kept(names_.firm, had));
    SessionEvent event = event_of(nullptr);
    event.notes = {note_of_act(session_notes::reset, act)};
    note_why("an operator has reset the session");
    if (machine_.is_on()) {
        host_.logged_off(names_.firm);
    }
    host_.put_reset(names_.firm, had, event);
    complete(0, nullptr);
    forget_rows();
}

} // namespace gateway
