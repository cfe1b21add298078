#include "session/firm_session.h"

#include "session/notes_of_turn.h"
#include "session/own_fields.h"
#include "session/session_names.h"
#include "session/transport.h"

#include <algorithm>
#include <stdexcept>
#include <utility>

namespace gateway {

namespace {

using std::chrono::milliseconds;

constexpr std::int64_t last_moment = 24LL * 60 * 60 * 1000 - 1;

// The date of now in UTC, YYYYMMDD.
std::string date_of_now() {
    const auto today = std::chrono::floor<std::chrono::days>(std::chrono::system_clock::now());
    const std::chrono::year_month_day date(today);
    const unsigned number = static_cast<unsigned>(static_cast<int>(date.year())) * 10000 +
                            static_cast<unsigned>(date.month()) * 100 +
                            static_cast<unsigned>(date.day());
    return std::to_string(number);
}

FirmSession::Received midnight_of(const std::string &date) {
    if (date.size() != 8 || date.find_first_not_of("0123456789") != std::string::npos) {
        throw std::runtime_error(date + " is no date");
    }
    const std::chrono::year year(std::stoi(date.substr(0, 4)));
    const std::chrono::month month(static_cast<unsigned>(std::stoul(date.substr(4, 2))));
    const std::chrono::day day(static_cast<unsigned>(std::stoul(date.substr(6, 2))));
    return std::chrono::sys_days(year / month / day);
}

SessionNames names_of(const SessionStart &start) {
    return {start.firm, start.venue, start.date.empty() ? date_of_now() : start.date};
}

bool is_on(const SessionState &state) {
    return state.phase == Machine::phase_on;
}

} // namespace

FirmSession::FirmSession(const SessionStart &start, EngineEvents &events)
    : names_(names_of(start)), name_(session_name(start.venue, start.firm)), host_(*start.host),
      events_(events), midnight_(midnight_of(names_.date)), machine_(names_, start.numbers) {
    if (start.is_open) {
        machine_.ordered(begin(), Order::open);
        machine_.adopt();
    }
    rows_.forget(machine_.numbers().next);
}

FirmSession::~FirmSession() = default;

bool FirmSession::is_named(const std::string &firm, const std::string &desk) const {
    return firm == names_.firm && is_of(desk);
}

bool FirmSession::is_of(const std::string &desk) const {
    return names_.desk.empty() || desk == names_.desk;
}

std::uint32_t FirmSession::moment_at(Received at) const {
    const auto since = std::chrono::floor<milliseconds>(at - midnight_).count();
    return static_cast<std::uint32_t>(
        std::clamp(static_cast<std::int64_t>(since), std::int64_t{0}, last_moment));
}

std::uint32_t FirmSession::moment_now() const {
    return moment_at(std::chrono::system_clock::now());
}

// The moment of the event that begins.
std::uint32_t FirmSession::begin(Received at) {
    moment_ = moment_at(at);
    message_ = {};
    return moment_;
}

std::uint32_t FirmSession::begin() {
    return begin(std::chrono::system_clock::now());
}

FirmSession::Visitor *FirmSession::visitor(std::uint64_t connection) {
    const auto found = visitors_.find(connection);
    return found == visitors_.end() ? nullptr : &found->second;
}

FirmSession::Visitor *FirmSession::holder() {
    const SessionState &state = machine_.state();
    if (machine_.is_away()) {
        return nullptr;
    }
    return visitor(is_on(state) ? state.line.connection : state.connection);
}

FirmSession::Standing FirmSession::standing_here(std::uint64_t connection) const {
    const auto found = visitors_.find(connection);
    if (found == visitors_.end() || found->second.is_over) {
        return Standing::over;
    }
    if (found->second.parts) {
        return Standing::parts;
    }
    return machine_.waits(connection) ? Standing::waits : Standing::on;
}

// What is to be in the log before what the machine's event does is seen.
SessionEvent FirmSession::event_of(const Delivery *delivery) const {
    const MachineTurn &turn = machine_.turn();
    SessionEvent event;
    event.numbers = machine_.next_numbers();
    event.moment = moment_;
    event.is_logged_on = is_on(machine_.next());
    event.drops_rejects = turn.told.drops_rejects;
    event.given = delivery;
    if (delivery == nullptr) {
        event.notes = notes_of_turn(machine_, moment_);
        event.replies = replies_in(event.notes, machine_);
    }
    if (turn.told.first.is_kept) {
        KeptMessage &kept = event.kept.emplace();
        kept.number = static_cast<std::uint32_t>(turn.told.first.number);
        kept.frame = turn.kept;
        kept.type = own_fields::value_in(turn.kept, own_fields::msg_type);
        kept.first = delivery == nullptr ? moment_ : delivery->moment;
    }
    return event;
}

// The machine's event is put into the log, and then it is so.
void FirmSession::carry_out(const Delivery *delivery) {
    carry_out(event_of(delivery));
}

void FirmSession::carry_out(SessionEvent event) {
    const Delivery *const delivery = event.given;
    begin_if_accepted();
    const bool was_on = machine_.is_on();
    if (was_on && !event.is_logged_on) {
        note_unsaid();
        host_.logged_off(names_.firm);
    }
    const bool changes = event.kept || event.given != nullptr || event.drops_rejects ||
                         was_on != event.is_logged_on || !event.notes.empty() ||
                         event.numbers != machine_.numbers();
    const std::uint64_t ticket = changes ? host_.put(names_.firm, event) : 0;
    if (changes && delivery == nullptr) {
        own_ticket_ = ticket;
    }
    if (event.drops_rejects) {
        forget_rows();
    }
    note_kept(event, ticket);
    complete(delivery == nullptr ? own_ticket_ : 0, delivery);
    if (!was_on && event.is_logged_on) {
        host_.logged_on(names_.firm);
    }
}

// A Logon that is accepted: its connection's row comes first.
void FirmSession::begin_if_accepted() {
    const SessionState &next = machine_.next();
    Visitor *const from = is_on(next) ? visitor(next.line.connection) : nullptr;
    if (!machine_.is_on() && from != nullptr) {
        logons_.add(LogonRate::Time::clock::now());
        from->number = host_.logon_accepted(names_.firm, from->transport->facts());
    }
}

// What waits to leave is kept at hand; where nothing does, nothing is.
void FirmSession::note_kept(const SessionEvent &event, std::uint64_t ticket) {
    const SessionState &next = machine_.next();
    const bool is_clear = !is_on(next) || (next.line.fresh == next.day.next &&
                                           next.line.again_end <= next.line.again);
    if (is_clear) {
        rows_.forget(event.numbers.next);
    } else {
        rows_.extend(machine_.numbers().next, event.numbers.next,
                     event.kept ? &*event.kept : nullptr, ticket);
    }
}

void FirmSession::complete(std::uint64_t ticket, const Delivery *delivery) {
    const MachineTurn &turn = machine_.turn();
    const bool is_ahead = is_on(machine_.state()) && is_on(machine_.next()) &&
                          machine_.next().line.gap > machine_.state().line.gap;
    machine_.adopt();
    post(turn, ticket);
    if (is_ahead) {
        events_.dropped("gap", name_);
    }
    if (delivery == nullptr) {
        tell(turn);
    }
    end_as_told(turn);
    note_transport();
    if (machine_.wants().kind != static_cast<std::uint32_t>(Want::nothing)) {
        if (Visitor *const has = holder()) {
            has->transport->wake();
        }
    }
}

// The messages leave at once where nothing is in front of them and they wait for no commit.
// Whatever is handed over waits for the entries that the venue has answered by now: it may be such
// an answer.
void FirmSession::post(const MachineTurn &turn, std::uint64_t ticket) {
    Visitor *const to = visitor(turn.told.connection);
    if (to == nullptr || to->is_over || turn.first.size() + turn.second.size() == 0) {
        return;
    }
    // They stand one behind the other.
    const std::string_view bytes(turn.first.data(), turn.first.size() + turn.second.size());
    to->unsent.push_back({ticket, given_for_, std::string(bytes)});
    to->last_ticket = std::max(to->last_ticket, ticket);
    if (!more_follow_) {
        send_what_may_leave(*to);
    }
    if (to->last_ticket > stored_ticket_) {
        to->transport->wake();
    }
}

bool FirmSession::may_leave(const Unsent &unsent) const {
    return unsent.ticket <= stored_ticket_ && host_.is_entry_stored(names_.firm, unsent.place);
}

void FirmSession::send_what_may_leave(Visitor &to) {
    std::string bytes;
    while (!to.unsent.empty() && may_leave(to.unsent.front())) {
        bytes += to.unsent.front().bytes;
        to.unsent.pop_front();
    }
    if (!bytes.empty()) {
        to.transport->send(bytes);
    }
}

void FirmSession::send_held_back() {
    if (const std::unique_lock lock(mutex_, std::try_to_lock); lock) {
        for (auto &[connection, to] : visitors_) {
            send_what_may_leave(to);
        }
        return;
    }
    const std::lock_guard lock(transport_mutex_);
    if (transport_ != nullptr) {
        transport_->wake();
    }
}

void FirmSession::tell(const MachineTurn &turn) {
    switch (static_cast<Notice>(turn.told.notice)) {
    case Notice::rejected:
        events_.dropped("rejected by the firm", name_);
        break;
    case Notice::dead:
        events_.dropped("dead connection", name_);
        break;
    case Notice::lost_store:
        events_.dropped("lost store", name_);
        break;
    default:
        break;
    }
    const std::string_view type = own_fields::value_in(turn.kept, own_fields::msg_type);
    if (turn.told.first.is_kept && (type == "3" || type == "j")) {
        events_.dropped(
            type == "3" ? "session reject" : "not taken",
            name_ + ": " + std::string(turn.kept.substr(turn.kept.find(own_fields::msg_type) + 1)));
    }
}

void FirmSession::tick(std::uint64_t connection, Received now) {
    const std::lock_guard lock(mutex_);
    if (machine_.has(connection)) {
        ahead_ = std::max(now - std::chrono::system_clock::now(), Received::duration(0));
        machine_.tick(begin(now));
        carry_out(nullptr);
    }
    end_parted();
}

void FirmSession::deliver(const Delivery &delivery, bool more_follow) {
    const std::lock_guard lock(mutex_);
    more_follow_ = more_follow;
    deliver_here(delivery);
    more_follow_ = false;
}

bool FirmSession::deliver_at_once(const Delivery &delivery) {
    const std::unique_lock lock(mutex_, std::try_to_lock);
    if (!lock) {
        return false;
    }
    deliver_here(delivery);
    return true;
}

void FirmSession::deliver_here(const Delivery &delivery) {
    given_for_ = std::max(given_for_, delivery.place);
    // No earlier than its entry, which is the moment that a resend has (122), whichever gateway's
    // clock is behind.
    moment_ = std::max(begin(), delivery.moment);
    machine_.given(moment_, delivery.wire);
    if (!machine_.turn().told.first.is_kept) {
        // Its firm has used the numbers up; the venue goes on, and so does whoever else is there.
        events_.dropped("session over", name_);
    }
    carry_out(&delivery);
}

void FirmSession::shut() {
    const std::lock_guard lock(transport_mutex_);
    if (transport_ != nullptr) {
        transport_->shut("the firm does not keep up");
    }
}

std::size_t FirmSession::waiting_bytes() const {
    const std::lock_guard lock(transport_mutex_);
    return transport_ == nullptr ? 0 : transport_->waiting();
}

void FirmSession::note_transport() {
    Visitor *const has = holder();
    const std::lock_guard lock(transport_mutex_);
    transport_ = has == nullptr ? nullptr : has->transport;
}

// What is read of the log just now is old, too.
void FirmSession::forget_rows() {
    rows_.forget(machine_.numbers().next);
    ++forgotten_;
}

} // namespace gateway
