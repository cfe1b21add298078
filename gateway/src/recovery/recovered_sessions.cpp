#include "recovery/recovered_sessions.h"

#include "common/frame.h"
#include "recovery/recovered_numbers.h"

#include <algorithm>
#include <optional>
#include <stdexcept>
#include <vector>

#include <fmt/format.h>

namespace gateway {

namespace {

[[noreturn]] void fail(const std::string &firm, const std::string &why) {
    throw std::runtime_error(
        fmt::format("{}'s session does not follow from entries and session notes: {}", firm, why));
}

// Which act of an operator a note carries out; nothing where it carries out none.
std::optional<FirmOrder> order_of(const SessionNote &said) {
    if (said.kind == session_notes::reset) {
        return FirmOrder::reset;
    }
    return said.kind == session_notes::lock && !said.is_locked ? std::optional(FirmOrder::release)
                                                               : std::nullopt;
}

bool is_reject(char kind) {
    return kind == '3' || kind == 'j';
}

} // namespace

RecoveredSessions::RecoveredSessions(Spool &spool, NoteQueue &notes, const std::string &date)
    : spool_(spool), notes_(notes), midnight_(midnight_of_session(date)) {
    for (const std::string &firm : spool.firms()) {
        firms_[firm];
    }
}

void RecoveredSessions::go_on(const Fed &fed) {
    for (auto line = notes_.front(); line && take(read_session_note(*line), fed);
         line = notes_.front()) {
        notes_.pop();
    }
}

// False where it has to wait.
bool RecoveredSessions::take(const SessionNoteLine &line, const Fed &fed) {
    if (!may_take(line, fed)) {
        return false;
    }
    Firm &firm = firms_[line.firm];
    ++firm.notes;
    try {
        take_here(line.firm, firm, line);
    } catch (const std::runtime_error &fault) {
        fail(line.firm, fmt::format("its note {}: {}", firm.notes, fault.what()));
    }
    return true;
}

bool RecoveredSessions::may_take(const SessionNoteLine &line, const Fed &fed) const {
    if (line.given > 0 && line.given > spool_.last_given(line.firm)) {
        return false;
    }
    const auto order = order_of(line.said);
    if (!order) {
        return true;
    }
    const ReplaySummary entries = fed();
    if (entries.last_place() < line.said.act) {
        return false;
    }
    const std::vector<FirmOrdered> orders = entries.orders_of(line.firm);
    if (std::ranges::none_of(orders, [&](const FirmOrdered &ordered) {
            return ordered.place == line.said.act && ordered.order == *order;
        })) {
        fail(line.firm, fmt::format("no operator has done what a note carries out, in entry {}",
                                    line.said.act));
    }
    return true;
}

void RecoveredSessions::take_here(const std::string &name, Firm &firm,
                                  const SessionNoteLine &line) {
    give_up_to(name, firm, line.given);
    const bool is_reset = line.said.kind == session_notes::reset;
    const std::uint64_t copies = is_reset ? spool_.count_given(name, line.had) : 0;
    take_note(firm.session, line, midnight_, copies);
    keep(name, line);
}

// What a note changes of what is kept.
void RecoveredSessions::keep(const std::string &name, const SessionNoteLine &line) {
    const SessionNote &said = line.said;
    if (said.kind == session_notes::reset) {
        spool_.reset(name, line.had);
    } else if (said.kind == 'A' && said.resets) {
        spool_.drop_rejects(name, 1);
    } else if (is_reject(said.kind)) {
        const std::string type(1, said.kind);
        spool_.keep(name,
                    {said.number, type, framed(fmt::format("35={}{}{}", type, soh, said.fields)),
                     said.moment, false});
    }
}

// The venue's next messages, up to the one of this number. Once the session's own numbers are used
// up, nothing is kept.
void RecoveredSessions::give_up_to(const std::string &name, Firm &firm, std::uint32_t number) {
    const auto first = static_cast<std::uint32_t>(firm.session.given + 1);
    spool_.keep_all_given(name, first, number, [&session = firm.session](const Digest &hash) {
        const std::uint64_t next = session.day.next;
        take_message(session, hash);
        return session.day.last_given == next ? static_cast<std::uint32_t>(next) : 0;
    });
}

std::map<std::string, FirmState> RecoveredSessions::finished(const ReplaySummary &fed) {
    if (const auto line = notes_.front()) {
        const SessionNoteLine note = read_session_note(*line);
        fail(note.firm, fmt::format("the venue gave it {} messages, and a note names {}",
                                    spool_.last_given(note.firm), note.given));
    }
    for (const auto &[name, came] : fed.came()) {
        firms_[name];
    }
    std::map<std::string, FirmState> states;
    for (auto &[name, firm] : firms_) {
        states[name] = state_of(name, firm, fed);
    }
    return states;
}

FirmState RecoveredSessions::state_of(const std::string &name, Firm &firm,
                                      const ReplaySummary &fed) {
    FirmState state;
    state.noted = static_cast<std::uint32_t>(firm.session.given);
    state.given = spool_.has(name) ? spool_.last_given(name) : 0;
    give_up_to(name, firm, state.given);
    if (const auto came = fed.came().find(name); came != fed.came().end()) {
        count(name, firm.session, came->second);
        state.entries = came->second.entries;
        state.bytes = came->second.bytes;
    }
    state.epoch = static_cast<std::uint32_t>(firm.session.epoch);
    state.numbers = numbers_of(firm.session);
    state.numbers.is_suspended = is_suspended(name, fed);
    state.act = static_cast<std::uint32_t>(firm.session.act);
    return state;
}

// The numbers of entries rise, but for the first one behind a reset.
void RecoveredSessions::count(const std::string &name, Recovered &session,
                              const ReplaySummary::Came &came) {
    if (came.fell_at > session.since && came.fell_behind > session.since) {
        fail(name, fmt::format("the number of entry {} is not behind that of entry {}",
                               came.fell_at, came.fell_behind));
    }
    if (came.last_place > 0) {
        take_entry(session, came.last_place, came.last_number);
    }
}

// By the last of the acts to suspend and to resume.
bool RecoveredSessions::is_suspended(const std::string &name, const ReplaySummary &fed) {
    bool is_suspended = false;
    for (const FirmOrdered &ordered : fed.orders_of(name)) {
        if (ordered.order == FirmOrder::suspend || ordered.order == FirmOrder::resume) {
            is_suspended = ordered.order == FirmOrder::suspend;
        }
    }
    return is_suspended;
}

} // namespace gateway
