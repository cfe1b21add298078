#include "day/leader.h"

#include "base/printable.h"
#include "common/version.h"
#include "log/act_event.h"
#include "log/notes.h"
#include "session/session_names.h"

#include <algorithm>
#include <chrono>
#include <exception>
#include <thread>
#include <utility>

namespace gateway {

namespace {

using namespace std::chrono_literals;

// How long the venue has to answer what came, at the end.
constexpr auto longest_end = 10s;

// How long what is due at the day's end may take, and how long it is waited for at once.
constexpr auto longest_due = 5s;
constexpr auto look_at_due = 10ms;

// How long the venue has to answer what came before an act.
constexpr auto longest_answer = 3s;

// Requests without a notice that have a line of their own, and the bytes that a name may have.
constexpr std::size_t most_left_told = 100;
constexpr std::size_t longest_name = 40;

// Until it holds, or for so long at most.
template <typename Holds> void wait_for(Holds holds, std::chrono::milliseconds longest) {
    const auto latest = std::chrono::steady_clock::now() + longest;
    while (!holds() && std::chrono::steady_clock::now() < latest) {
        std::this_thread::sleep_for(look_at_due);
    }
}

// No moment is given that is before one of the log.
void set_clock_behind(DayClock &clock, const Entry &last, const ConnectionState &connections) {
    if (const auto latest = moment_of(last.moment)) {
        clock.not_before(ExactMoment::end_of(*latest));
    }
    if (connections.last) {
        clock.not_before(exact_moment_of(connections.last->moment).value_or(ExactMoment{}));
    }
}

// Up to where they are sealed.
ConnectionState sealed_connections(LogReader &log, const Position &sealed) {
    ConnectionState state = connections_in(log);
    const Digest last = state.last ? state.last->hash : Digest{};
    if (last != sealed.event_hash) {
        throw std::runtime_error(
            "the log was changed while it was read: the table connection is not as it is sealed");
    }
    return state;
}

Log::Start start_of(VenueDay &day, const Follower::End &end, std::uint32_t term) {
    Log::Start start;
    start.waiting = day.config.waiting_entries;
    start.shares = day.config.shares;
    start.last = end.last;
    start.term = term;
    start.connections = sealed_connections(*day.database->reader(), day.guard.sealed());
    start.sealer = day.guard.sealer();
    start.seals = day.guard.sealed().seal;
    start.notes = day.guard.sealed().notes;
    set_clock_behind(day.clock, start.last, start.connections);
    return start;
}

// Both come only once the log is given some: what they set is there then.
Log::Start with_listeners(Log::Start start,
                          std::function<void(std::uint32_t, const std::string &)> noted,
                          std::function<void()> stored) {
    start.noted = std::move(noted);
    start.stored = std::move(stored);
    return start;
}

} // namespace

Leader::Leader(VenueDay &day, std::unique_ptr<Follower> follower, const Follower::End &end,
               Log::Start start, Engine &engine)
    : day_(day), engine_(engine), follower_(std::move(follower)), last_before_(end.last.place),
      before_(start.connections), sessions_(day, log_, end.states),
      log_(*day.database, follower_->entry_feed(), day.clock, day.metrics,
           with_listeners(
               std::move(start),
               [this](std::uint32_t place, const std::string &line) { take_note(place, line); },
               [this] { send_held_back(); }),
           [&status = day.status](const std::string &cause) { status.fail(cause); }),
      signer_(day.guard.signer(log_, day.config.checkpoints_to)), deliveries_(day, engine, log_),
      clock_log_(log_), stall_(day.events, day.of_venue()),
      sweeper_(follower_->progress(), log_, day.clock) {
    take_notes(end);
}

Leader::Leader(VenueDay &day, std::unique_ptr<Follower> follower, const Follower::End &end,
               std::uint32_t term, Engine &engine)
    : Leader(day, std::move(follower), end, start_of(day, end, term), engine) {
    day_.events->info("speaks{} term={} entries={}", day_.of_venue(), term, end.last.place);
}

// The venue's threads give to the mailboxes, and these to the log.
Leader::~Leader() {
    sweeper_.stop();
    follower_->close();
}

void Leader::start() {
    follower_->give_to(deliveries_);
    carry_out_orders();
    sessions_.end_lost(before_.open);
    day_.look_at_disk();
    clock_log_.look(day_.kernel_clock(), day_.take_steps());
    log_.append_note(note_kinds::gateway, text_of_gateway(day_.config.name, version_text()));
    log_.flush();
    sweeper_.start();
    if (day_.ordered_end.is_ordered()) {
        // Whether the day has ended is known then, before firms may log on.
        follower_->progress().wait(log_.last_place(), longest_end, day_.status.stopping());
    }
}

// The messages whose entries are on disk now.
void Leader::send_held_back() {
    for (const std::string &firm : sessions_.take_held_back()) {
        engine_.send_held_back(session_name(day_.config.venue, firm));
    }
}

// Of a day that goes on. A release that a session note names is not carried out again: it took
// effect, and a lock of now came behind it.
void Leader::take_notes(const Follower::End &end) {
    for (const auto &[place, line] : end.notes) {
        const auto note = note_of(line);
        const auto ordered = note ? firm_order_in(*note) : std::nullopt;
        const auto state = ordered ? end.states.find(ordered->firm) : end.states.end();
        const bool is_over = state != end.states.end() && state->second.act >= place;
        if (!is_over || ordered->order != FirmOrder::release) {
            take_note(place, line);
        }
    }
}

// What an operator has set, and what the clock has done, as the log has it: the same at a start.
void Leader::take_note(std::uint32_t place, const std::string &line) {
    const auto note = note_of(line);
    if (!note) {
        return;
    }
    if (const auto limit = limit_in(*note)) {
        sessions_.set_limit(*limit);
    }
    if (const auto halt = halt_in(*note)) {
        day_.halts.set(*halt);
    }
    if (auto ordered = firm_order_in(*note); ordered && sessions_.has_firm(ordered->firm)) {
        ordered->place = place;
        take_order(*ordered);
    }
    if (const auto firm = admitted_in(*note)) {
        sessions_.admit(*firm);
    }
    if (const auto trade = bust_in(*note)) {
        day_.trades.make_void(*trade);
    }
    day_.ordered_end.order(day_end_in(*note));
    if (accepts_clock(*note)) {
        day_.take_clock_accepted();
    }
    if (const auto step = step_in(*note)) {
        day_.take_step(*step, place > last_before_);
    }
}

void Leader::take_order(const FirmOrdered &ordered) {
    if (ordered.order == FirmOrder::suspend || ordered.order == FirmOrder::resume) {
        sessions_.set_suspended(ordered.firm, ordered.order == FirmOrder::suspend);
    }
    commands_.note(ordered);
}

// What an act forbids is forbidden before it has its place in the log's order, so that nothing
// stands behind it there that it forbids, however long its commit takes. What it allows, once it is
// committed.
void Leader::forbid(const std::string &text) {
    const Entry entry = note_entry(0, 0, note_kinds::act, text, ExactMoment{});
    const auto note = note_of(entry.line);
    if (!note) {
        return;
    }
    if (const auto ordered = firm_order_in(*note);
        ordered && ordered->order == FirmOrder::suspend) {
        sessions_.announce_suspension(ordered->firm); // whose messages are held
    }
    const auto halt = halt_in(*note);
    const bool halts = halt && halt->is_halted;
    const DayEnd end = day_end_in(*note);
    if (halts) {
        day_.halts.announce(halt->bond);
    }
    day_.ordered_end.announce(end);
    if (halts || end != DayEnd::as_configured) {
        sessions_.finish_messages();
    }
}

bool Leader::commit_act(const Act &act, std::chrono::milliseconds longest) {
    const std::string text = text_of(act);
    day_.events->warn("operator{} {}", day_.of_venue(), event_of(act));
    forbid(text);
    return log_.wait_for(log_.append_note(note_kinds::act, text), longest);
}

bool Leader::commit_act_with_end(const FirmEnd &end, const Act &act,
                                 std::chrono::milliseconds longest) {
    const std::string text = text_of(act);
    const auto held = sessions_.hold(end.firm);
    // What is open by its name is known once all is answered that came before. A suspension does
    // not fail for a venue that is silent: it passes what is known.
    const bool is_known =
        sessions_.is_cancel_of_all(end) ||
        follower_->progress().wait(log_.last_place(), longest_answer, day_.status.stopping());
    if (!is_known && !end.trader.empty()) {
        throw std::runtime_error("the venue has not answered yet what came before: try again");
    }
    day_.events->warn("operator{} {}", day_.of_venue(), event_of(act));
    forbid(text);
    return log_.wait_for(sessions_.put_act_with_end(end, text), longest);
}

void Leader::carry_out_orders() {
    commands_.carry_out([this](const std::string &firm) { return sessions_.epoch_of(firm); },
                        [this](const FirmOrdered &ordered) { carry_out(ordered); });
}

void Leader::carry_out(const FirmOrdered &ordered) {
    const std::string session = session_name(day_.config.venue, ordered.firm);
    switch (ordered.order) {
    case FirmOrder::suspend:
        engine_.suspend(session);
        break;
    case FirmOrder::resume:
        engine_.resume(session);
        break;
    case FirmOrder::release:
        engine_.release(session, ordered.place);
        break;
    case FirmOrder::reset:
        engine_.reset(session, ordered.place);
        break;
    }
}

// The sweeper has it told; a request of that deadline may be hit meanwhile, and so end otherwise.
void Leader::wait_for_due() {
    follower_->progress().wait_until_none_is_due(day_.clock, longest_due, day_.status.failed());
    deliveries_.wait_until_handed_over();
}

void Leader::end_requests() {
    if (day_.ordered_end.end() == DayEnd::now) {
        // No hit is taken any more: both firms are told of each before, while they are logged on.
        wait_for([this] { return sessions_.are_between_messages(); }, longest_due);
        follower_->progress().wait(log_.last_place(), longest_due, day_.status.failed());
    }
    wait_for_due();
    std::size_t left = 0;
    for (const OpenRequests::Open &open : day_.open_requests.all()) {
        if (++left <= most_left_told) {
            day_.events->warn("left without a notice firm={}{} request=\"{}\"", open.firm,
                              day_.of_venue(), printable(open.request, longest_name));
        }
    }
    if (left > most_left_told) {
        day_.events->warn("left without a notice{} more={}", day_.of_venue(),
                          left - most_left_told);
    }
}

// Nothing is open once the venue has answered all that was taken before the order.
bool Leader::has_operator_ended() {
    const DayEnd end = day_.ordered_end.end();
    if (end != DayEnd::once_nothing_is_open) {
        return end == DayEnd::now;
    }
    if (!last_of_requests_ && sessions_.are_between_messages()) {
        last_of_requests_ = log_.last_place();
    }
    return last_of_requests_ &&
           follower_->progress().last_place().value_or(0) >= *last_of_requests_ &&
           day_.open_requests.are_none();
}

void Leader::finish() {
    sweeper_.stop();
    follower_->progress().wait(log_.last_place(), longest_end, day_.status.failed());
    deliveries_.wait_until_handed_over();
}

void Leader::end(bool is_end_of_day) {
    follower_->end_venue();
    deliveries_.wait_until_handed_over();
    sessions_.rows().put_last_rest();
    log_.flush();
    signer_->end(is_end_of_day);
    day_.events->info("ended{} entries={}", day_.of_venue(), log_.last_place());
}

void Leader::look_at_clock() {
    day_.look_at_clock();
    try {
        clock_log_.look(day_.kernel_clock(), day_.take_steps());
    } catch (const std::exception &) {
        // The log takes nothing any more, and has told it.
    }
}

void Leader::look() {
    look_at_clock();
    day_.look_at_disk();
    try {
        carry_out_orders();
        // Of what is committed: a log that does not answer is no silence of the venue.
        const auto silent = follower_->look_at_venue(follower_->entry_feed().last_place());
        day_.status.liveness().put("the venue" + day_.of_venue(), silent);
    } catch (const std::exception &fault) {
        day_.status.fail(fault.what());
    }
    stall_.look(log_.commits_since());
    day_.status.liveness().put("the log" + day_.of_venue(), log_.since_commit());
    sessions_.rows().put_rest();
    count();
}

void Leader::count() {
    const std::uint32_t last = log_.last_place();
    const std::uint32_t answered = follower_->progress().last_place().value_or(0);
    day_.metrics.backlog(day_.config.venue, last - std::min(answered, last), log_.waiting());
    day_.metrics.clock_is_doubtful(day_.config.venue, !day_.clock_is_right);
    day_.metrics.halted(day_.config.venue, day_.halts.is_venue_halted(), day_.halts.bonds().size());
    sessions_.count_waiting(engine_);
}

void Leader::renew(const std::map<std::string, Credentials> &credentials) {
    for (const std::string &firm : sessions_.renew(credentials)) {
        day_.events->info("credentials ended firm={}{}", firm, day_.of_venue());
        engine_.log_out(session_name(day_.config.venue, firm),
                        "the credentials of this session are not valid any more");
    }
}

void Leader::put_stranger(const ConnectionFacts &facts, const std::string &why) {
    sessions_.rows().put_stranger(facts, why);
}

} // namespace gateway
