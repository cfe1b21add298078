#include "recovery/follower.h"

#include "common/frame.h"
#include "recovery/log_watch.h"
#include "recovery/unnoted_rows.h"
#include "session/session_names.h"
#include "session/wire.h"

#include <algorithm>
#include <stdexcept>
#include <utility>

#include <fmt/format.h>

namespace gateway {

namespace {

using namespace std::chrono_literals;

// Entries that are read from the database at once.
constexpr std::uint32_t chunk = 1024;

// How often a gateway that speaks and does not write yet says that it is there.
constexpr auto sign_of_life = 500ms;

// How long a venue may be silent until a gateway that is to write for it no longer says so.
constexpr auto longest_silence = 3s;

// Of TAG=VALUE, for as long as that lives.
ToldField told_field(const std::optional<std::string> &told) {
    if (!told) {
        return {};
    }
    const std::string_view field = *told;
    const std::size_t equals = field.find('=');
    return {number_of(field.substr(0, equals)).value_or(0), field.substr(equals + 1)};
}

} // namespace

Follower::Follower(VenueDay &day, std::optional<std::uint32_t> term)
    : Follower(day, open_day(day.config, *day.database, day.guard, term, day.clock, day.events)) {
    if (!term) {
        day_.events->info("follows{} entries={}", day_.of_venue(), last_.place);
    }
}

Follower::Follower(VenueDay &day, const OpenedDay &opened)
    : day_(day), last_(opened.last), found_(last_.place), reasons_(opened.reasons),
      entry_feed_(last_.place), recovered_(day.spool, day.session_notes, day.config.firms.date),
      silence_(day.events, day.of_venue()),
      venue_({with_notes(day.config.command, !reasons_.empty()), day.config.configuration,
              day.config.venue_starts, day.config.confined},
             *day.database, entry_feed_, opened.first.hash, *this, day.metrics, day.events) {
    day_.metrics.venue_is(day_.config.venue, day_of(opened.first.line).version);
    if (reasons_.empty()) {
        day_.events->warn("no reasons and no trade names{}: the day began with a program that does "
                          "not know --notes",
                          day_.of_venue());
    }
    venue_.start();
}

Follower::~Follower() {
    close();
}

void Follower::close() {
    sink_ = nullptr;
    venue_.stop();
}

void Follower::end_venue() {
    venue_.stop();
}

std::optional<std::uint32_t> Follower::follow(const std::function<bool()> &may) {
    LogWatch watch(*day_.database, day_.events, [&] { return may() && may_take_over(); });
    watch.watch(day_.status.stopping(), [this](LogReader &log) {
        day_.look_at_clock();
        read_on(log);
        recovered_.go_on([this] { return venue_.replay_summary(); });
        look_at_venue(last_.place);
        tell_if_ready();
        return false;
    });
    return watch.term();
}

// A day begins with the gateway that speaks first. Where there is a log, only one whose venue has
// answered it takes over: another may be ready at once.
bool Follower::may_take_over() {
    return progress_.wait(found_, 0ms, day_.status.stopping());
}

// Once: from now on a take-over costs no replay, and asks for no operator.
void Follower::tell_if_ready() {
    if (!ready_ && day_.guard.has_kept() && progress_.wait(found_, 0ms, day_.status.stopping())) {
        ready_ = true;
        day_.status.is_now(Phase::stands_by);
        day_.events->info("stands by{} entries={}", day_.of_venue(), last_.place);
    }
}

// Whether there was something.
bool Follower::read_on(LogReader &log) {
    std::vector<LoggedEntry> entries;
    for (Entry &entry : log.entries(last_.place + 1, chunk)) {
        check_link(entry, last_.place + 1, last_.hash);
        last_ = entry;
        entries.push_back({std::move(entry), std::chrono::steady_clock::now()});
    }
    day_.guard.read_on(log);
    const bool some = !entries.empty();
    entry_feed_.put(entries);
    return some;
}

std::optional<Follower::End> Follower::catch_up() {
    const auto reader = day_.database->reader();
    const std::vector<Entry> same = reader->entries(last_.place, 1);
    if (same.empty() || same.front().hash != last_.hash) {
        throw std::runtime_error(
            fmt::format("entry {} was in the log, and is not any more", last_.place));
    }
    while (read_on(*reader)) {
    }
    day_.guard.check_end(*reader, last_);
    const auto writer = day_.database->writer();
    const auto replayed = all_answered(*writer);
    if (!replayed) {
        return std::nullopt;
    }
    if (!replayed->ends_with(last_)) {
        throw std::runtime_error(
            fmt::format("the log was changed while it was read: what the venue was fed does not "
                        "end with entry {} as it is sealed",
                        last_.place));
    }
    recovered_.go_on([&] { return *replayed; });
    End end{last_, recovered_.finished(*replayed), replayed->notes()};
    put_unnoted(*writer, end.states, day_.spool);
    return end;
}

// Waits until the venue has answered the log as far as it was read: what it was fed. With a venue
// that is silent it says nothing: a gateway that follows takes over then. Nothing where the gateway
// is to stop.
std::optional<ReplaySummary> Follower::all_answered(LogWriter &writer) {
    const std::stop_token stop = day_.status.stopping();
    while (!stop.stop_requested()) {
        if (!progress_.wait(last_.place, sign_of_life, stop)) {
            day_.look_at_clock();
            if (look_at_venue(last_.place) < longest_silence) {
                writer.be_seen();
            }
            continue;
        }
        // No other process of it begins meanwhile, which would be fed all again.
        const std::lock_guard lock(beginning_mutex_);
        if (progress_.wait(last_.place, 0ms, stop)) {
            return venue_.replay_summary();
        }
    }
    return std::nullopt;
}

std::chrono::steady_clock::duration Follower::look_at_venue(std::uint32_t last_place) {
    const auto silent = silence_.look(progress_.last_place(), last_place);
    const std::chrono::seconds longest(day_.config.venue_seconds);
    if (silent >= longest) {
        venue_.abandon();
        throw std::runtime_error(fmt::format("the venue{} has answered nothing for {} s",
                                             day_.of_venue(), longest.count()));
    }
    return silent;
}

// What the venue says.

void Follower::venue_starts() {
    const std::lock_guard lock(beginning_mutex_);
    given_.clear();
    progress_.begin(entry_feed_.last_place());
}

void Follower::venue_gave(const AnsweredEntry &entry, std::string name, std::string frame,
                          std::optional<VenueNote> note) {
    const GivenFields fields(frame);
    day_.open_requests.was_given(name, fields);
    day_.shown_quotes.was_given(name, fields);
    day_.live_quotes.was_given(entry.line, name, fields);
    if (note && note->kind == VenueNote::Kind::trade) {
        day_.trades.add(note->name);
    }
    const std::uint32_t number = number_of(fields.number).value_or(0);
    if (const std::uint32_t due = ++given_[name]; number != due) {
        throw std::runtime_error(
            fmt::format("the venue gave {} message {} where {} was due", name, number, due));
    }
    std::optional<std::string> told;
    if (note) {
        told = told_by(*note, name, number, reasons_, day_.config.firms.date);
    }
    GivenMessage message{number, entry.place, static_cast<std::uint32_t>(entry.moment.milliseconds),
                         std::string(fields.type),
                         for_wire(frame, number, entry.number, told_field(told))};
    MessageSink *const sink = sink_;
    if (sink == nullptr && number > day_.session_notes.noted(name)) {
        // The gateway before may not have put it where readers look.
        message.frame = frame;
        message.told = told;
    }
    check_is_due(name, message);
    const auto hash = day_.spool.give(name, message);
    if (!hash || sink == nullptr) {
        return;
    }
    Delivery delivery;
    delivery.session = session_name(day_.config.venue, name);
    delivery.firm = std::move(name);
    delivery.number = number;
    delivery.place = entry.place;
    delivery.moment = message.moment;
    delivery.frame = std::move(frame);
    delivery.type = std::move(message.type);
    delivery.wire = std::move(message.wire);
    delivery.told = std::move(told);
    delivery.hash = *hash;
    delivery.given = std::chrono::steady_clock::now();
    sink->take(std::move(delivery));
}

void Follower::venue_pauses() {
    if (MessageSink *const sink = sink_) {
        sink->pauses();
    }
}

void Follower::venue_answered(std::uint32_t place, std::optional<Moment> deadline) {
    if (place == answered_) {
        check_given(place);
    }
    answered_ = std::max(answered_, place);
    progress_.put(place, deadline);
    if (MessageSink *const sink = sink_) {
        sink->answered(place);
    }
}

// For what was answered before, a process that was started again gives nothing more: the log was
// changed meanwhile, or the program, and no firm is told of it.
void Follower::check_is_due(const std::string &firm, const GivenMessage &message) const {
    if (message.place <= answered_ && message.number > day_.spool.last_given(firm)) {
        throw std::runtime_error(
            fmt::format("the venue gives {} message {} for entry {}, which it has answered "
                        "without it",
                        firm, message.number, message.place));
    }
}

// A process that was started again has given all that the one before gave for the entries up to
// this place, which is the last one that was answered. That each is the same, the spool says.
void Follower::check_given(std::uint32_t place) const {
    for (const std::string &firm : day_.spool.firms()) {
        const auto found = given_.find(firm);
        const std::uint32_t next = (found == given_.end() ? 0 : found->second) + 1;
        if (next <= day_.spool.last_given(firm) && day_.spool.given(firm, next).place <= place) {
            throw std::runtime_error(
                fmt::format("the venue does not give {} message {} again", firm, next));
        }
    }
}

void Follower::venue_failed(const std::string &cause) {
    day_.status.fail(cause);
}

} // namespace gateway
