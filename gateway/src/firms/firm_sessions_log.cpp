// What the firms' sessions write into the log and read from it.
#include "firms/firm_sessions.h"

#include "common/frame.h"
#include "session/wire.h"

#include <algorithm>
#include <stdexcept>
#include <utility>

#include <fmt/format.h>

namespace gateway {

namespace {

// Text (58) of what answers a message that no entry can have.
constexpr const char *too_long_for_the_venue = "the message is longer than the venue takes";
// Of what 379 names.
constexpr std::size_t longest_denied_id = 200;

// BusinessRejectReason (380).
constexpr std::uint32_t other_reason = 0;

// `hex FIRM HH:MM:SS.sss DIGITS`
std::uint64_t bytes_of_line(const std::string &firm, const std::string &frame) {
    constexpr std::size_t rest = 18;
    return rest + firm.size() + 2 * frame.size();
}

} // namespace

// Of a turn whose numbers the firm has by now.
SessionNoteLine FirmSessions::line_of(const std::string &name, const Firm &firm,
                                      const SessionNote &said) {
    return {name,       firm.epoch,      said, firm.numbers.expected, firm.numbers.had,
            firm.given, firm.given_hash, 0};
}

std::vector<std::string> FirmSessions::lines_of(const std::string &name, const Firm &firm,
                                                const SessionEvent &event) {
    std::vector<std::string> lines;
    for (const SessionNote &note : event.notes) {
        lines.push_back(text_of(line_of(name, firm, note)));
    }
    return lines;
}

// The lines of its session notes; without one a mark, where the venue has given it something, more
// of it is known to have come, or the session ends by a message that is only counted: the firm's
// Logout that answers one. So nothing is asked for again after an end in order.
void FirmSessions::put_notes(const std::string &name, Firm &firm, const SessionEvent &event,
                             const SessionNumbers &before, Log::SessionChange &change) {
    if (event.given != nullptr) {
        firm.given = event.given->number;
        firm.given_hash = event.given->hash;
    }
    change.notes = lines_of(name, firm, event);
    const bool ends = !event.is_logged_on && event.numbers.expected > before.expected;
    const bool has_more = event.given != nullptr || event.numbers.had > before.had;
    if (event.notes.empty() && (has_more || ends)) {
        SessionNote mark;
        mark.moment = event.moment;
        change.mark = line_of(name, firm, mark);
    }
}

// What can't be put into the spool ends the gateway, as what can't be committed does.
void FirmSessions::spooled(const std::function<void()> &put) {
    try {
        put();
    } catch (const std::exception &fault) {
        day_.status.fail(fault.what());
        throw;
    }
}

void FirmSessions::spool(const std::string &name, const SessionEvent &event,
                         std::optional<std::uint32_t> drops_rejects_from) {
    spooled([&] {
        if (drops_rejects_from) {
            day_.spool.drop_rejects(name, *drops_rejects_from);
        }
        if (event.kept && event.given != nullptr) {
            day_.spool.keep_given(name, event.kept->number, event.given->number);
        } else if (event.kept) {
            day_.spool.keep(name, *event.kept);
        }
    });
}

std::uint64_t FirmSessions::put(const std::string &name, const SessionEvent &event) {
    Firm &firm = firm_of(name);
    const SessionNumbers before = std::exchange(firm.numbers, event.numbers);
    Log::SessionChange change{name};
    put_notes(name, firm, event, before, change);
    std::optional<std::uint32_t> drops_rejects_from;
    if (event.drops_rejects) {
        drops_rejects_from = std::exchange(firm.rejects_from, std::nullopt);
    }
    spool(name, event, drops_rejects_from);
    if (event.replies > 0) {
        firm.reply_rate.add(event.replies);
    }
    if (event.kept && event.given == nullptr) {
        firm.rejects_from = firm.rejects_from.value_or(event.kept->number);
    }
    if (const Delivery *const given = event.given) {
        change.given = Sent{name, given->number, given->place, given->frame, given->told};
        day_.metrics.delivered();
        firm.metrics.was_given(*given);
    }
    return log_.put(std::move(change));
}

bool FirmSessions::replies_too_much(const std::string &name) {
    return firm_of(name).reply_rate.are_too_many();
}

void FirmSessions::wait_stored(std::uint64_t ticket) {
    log_.wait(ticket);
}

// Whoever commits the entry meanwhile sees the mark, or it is seen here that it did.
bool FirmSessions::is_entry_stored(const std::string &name, std::uint32_t place) {
    if (log_.is_committed(place)) {
        return true;
    }
    firm_of(name).is_held_back = true;
    return log_.is_committed(place);
}

std::vector<std::string> FirmSessions::take_held_back() {
    std::vector<std::string> names;
    for (auto &[name, firm] : firms_) {
        if (firm.is_held_back && firm.is_held_back.exchange(false)) {
            names.push_back(name);
        }
    }
    return names;
}

Taken FirmSessions::take(const std::string &name, const SessionInput &input,
                         const SessionEvent &event) {
    Firm &firm = firm_of(name);
    const std::lock_guard lock(firm.mutex);
    if (!firm.connection || firm.connection->number != input.receipt.connection) {
        throw std::runtime_error(
            fmt::format("{}: a message on a connection that has no Logon", name));
    }
    const auto frame = for_venue(input.bytes, firm.entries + 1);
    if (!frame) {
        return {Taken::Verdict::denied, other_reason, {}, too_long_for_the_venue};
    }
    if (auto why = denied(name, firm, *frame, input.receipt)) {
        return std::move(*why);
    }
    // On one connection nothing comes before what came before it, also where the clock is set back.
    firm.last_receipt = std::max(firm.last_receipt, input.receipt.at);
    const Log::Came came{input.number, input.receipt.connection, firm.last_receipt};
    if (!log_.append_at_once(name, came, *frame, std::exchange(firm.turn, Log::Turn()))) {
        return {Taken::Verdict::waits, 0, {}, {}};
    }
    firm.numbers = event.numbers;
    firm.metrics.came(value_in(*frame, "35"), is_hit(*frame));
    if (lacks_room(firm)) {
        firm.rate_at_limit.add(bytes_of_line(name, *frame));
    }
    firm.limits.bytes.add(bytes_of_line(name, *frame));
    ++firm.entries;
    if (!event.notes.empty()) {
        // Its number was the last one: what the venue gives from now on has none.
        log_.put({name, {}, lines_of(name, firm, event)});
    }
    return {};
}

// What the gateway said in the firm's name: its entries are the firm's.
void FirmSessions::count_said(const std::string &name, Firm &firm,
                              const std::vector<std::string> &frames) {
    for (const std::string &frame : frames) {
        firm.limits.bytes.add(bytes_of_line(name, frame));
        ++firm.entries;
    }
}

void FirmSessions::wait_for_turn(const std::string &name, const Receipt &receipt) {
    Log::Turn turn = log_.wait_for_turn(name, receipt.at);
    Firm &firm = firm_of(name);
    const std::lock_guard lock(firm.mutex);
    firm.turn = std::move(turn);
}

void FirmSessions::give_turn_back(const std::string &name) {
    Firm &firm = firm_of(name);
    const std::lock_guard lock(firm.mutex);
    firm.turn.give_back();
}

// Why a message is not taken, whose frame for the venue this is; nothing where it is.
std::optional<Taken> FirmSessions::denied(const std::string &name, Firm &firm,
                                          std::string_view frame, const Receipt &receipt) {
    if (is_unsupported(value_in(frame, "35"))) {
        const NotTaken why = not_supported();
        return Taken{Taken::Verdict::denied, why.reason, {}, why.text};
    }
    auto why = why_not(name, firm, frame, receipt);
    if (!why && lacks_room(firm) && !firm.rate_at_limit.has_some()) {
        tell_spare_used_up(name, firm);
        why = too_much_is_taken_back();
    }
    if (!why) {
        return std::nullopt;
    }
    Taken taken;
    taken.verdict = Taken::Verdict::denied;
    taken.reason = why->reason;
    taken.id = std::string(name_in(frame).substr(0, longest_denied_id));
    taken.text = std::move(why->text);
    return taken;
}

// The same of a message that begins something.
std::optional<NotTaken> FirmSessions::why_not(const std::string &name, Firm &firm,
                                              std::string_view frame, const Receipt &receipt) {
    const auto business = business_in(frame);
    if (!business) {
        return std::nullopt;
    }
    const bool are_used_up = firm.limits.bytes.are_used_up();
    auto why = why_not_taken(day_, {name, receipt.at, are_used_up, firm.is_suspended()}, *business);
    if (why && are_used_up) {
        tell_bytes_used_up(name, firm);
    }
    return why;
}

// In the log, for anything but what takes something back.
bool FirmSessions::lacks_room(const Firm &firm) const {
    return firm.limits.bytes.are_used_up() || day_.reserve.is_reached();
}

void FirmSessions::tell_bytes_used_up(const std::string &name, Firm &firm) {
    if (!firm.told_of_bytes.exchange(true)) {
        day_.events->warn("day's bytes used up firm={}{} bytes={} limit={}", name, day_.of_venue(),
                          firm.limits.bytes.used(), firm.limits.bytes.limit());
    }
}

void FirmSessions::tell_spare_used_up(const std::string &name, Firm &firm) {
    if (!firm.told_of_spare.exchange(true)) {
        day_.events->warn("takes back too much firm={}{} bytes={} limit={}", name, day_.of_venue(),
                          firm.limits.bytes.used(), firm.limits.bytes.limit());
    }
}

void FirmSessions::all_received() {
    log_.commit();
}

std::vector<KeptMessage> FirmSessions::kept_messages(const std::string &name, std::uint32_t from,
                                                     std::size_t limit) {
    log_.flush(); // what is handed over is on disk
    return day_.spool.kept(name, from, limit);
}

std::uint64_t FirmSessions::count_kept(const std::string &name, std::uint32_t behind) {
    return day_.spool.count_given(name, behind);
}

// What the firm has in the log until now counts no longer for the session's numbers.
void FirmSessions::put_reset(const std::string &name, std::uint32_t behind,
                             const SessionEvent &event) {
    Firm &firm = firm_of(name);
    SessionNoteLine note = line_of(name, firm, event.notes.at(0));
    note.last = log_.fence();
    ++firm.epoch;
    firm.numbers = event.numbers;
    firm.rejects_from.reset();
    spooled([&] { day_.spool.reset(name, behind); });
    log_.put({name, {}, {text_of(note)}});
}

} // namespace gateway
