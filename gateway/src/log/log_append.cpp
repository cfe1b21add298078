// How entries get into the log: whose goes first, in which order, and with which moment.
#include "log/log.h"

#include "common/frame.h"
#include "log/notes.h"

#include <algorithm>
#include <utility>

#include <fmt/format.h>

namespace gateway {

namespace {

// For the metrics alone. The machine's clock may have been set since: what can't be is left out.
std::chrono::steady_clock::duration since_receipt(const std::optional<Log::Came> &came) {
    constexpr std::chrono::seconds longest(10);
    const auto since = came ? std::chrono::system_clock::now() - came->at
                            : std::chrono::system_clock::duration::zero();
    return since > longest || since.count() < 0 ? std::chrono::steady_clock::duration::zero()
                                                : std::chrono::steady_clock::duration(since);
}

} // namespace

Arrival Log::arrival_of(const std::string &firm, const std::optional<Came> &came,
                        std::string_view frame) {
    Arrival arrival;
    arrival.entry.firm = firm;
    arrival.at = came ? clock_.moment_at(came->at) : clock_.exact_now();
    if (came) {
        arrival.entry.number = came->number;
        arrival.entry.connection = came->connection;
    }
    arrival.verb = fmt::format("hex {} ", firm);
    arrival.rest = " ";
    append_hexadecimal(arrival.rest, frame);
    arrival.received = std::chrono::steady_clock::now() - since_receipt(came);
    return arrival;
}

Log::Ticket Log::append_message(const std::string &firm, const std::optional<Came> &came,
                                std::string_view frame, Committer committer) {
    Arrival arrival = arrival_of(firm, came, frame);
    std::unique_lock lock(mutex_);
    const auto own = waiters_.insert(waiters_.end(), Waiter{firm, arrival.at, came.has_value()});
    wait_until_it_may(lock, own);
    leave(own);
    throw_if_failed();
    fair_share_.put(firm);
    const Ticket ticket = append_here(std::move(arrival), committer);
    if (!came) {
        // It has the number behind those of the firm that are here: what the firm sent before it
        // and is put here later has a higher one.
        arrivals_.fence();
    }
    return ticket;
}

std::optional<Log::Ticket> Log::append_at_once(const std::string &firm, const Came &came,
                                               std::string_view frame, Turn turn) {
    Arrival arrival = arrival_of(firm, came, frame);
    const std::lock_guard lock(mutex_);
    throw_if_failed();
    auto own = turn.own_;
    if (!turn.is_held()) {
        own = waiters_.insert(waiters_.end(), Waiter{firm, arrival.at});
        if (!may_go(own)) {
            // What this thread has not committed yet is not to wait with it.
            work_.notify_one();
            waiters_.erase(own);
            return std::nullopt;
        }
    }
    turn.log_ = nullptr;
    leave(own);
    fair_share_.put(firm);
    return append_here(std::move(arrival), Committer::caller);
}

void Log::wait_until_it_may(std::unique_lock<std::mutex> &lock, Waiters::iterator own) {
    if (!may_go(own)) {
        // What this thread has not committed yet is not to wait with it.
        work_.notify_one();
    }
    room_.wait(lock, [&] { return may_go(own) || !failure_.empty(); });
}

void Log::leave(Waiters::iterator own) {
    waiters_.erase(own);
    if (!waiters_.empty()) {
        room_.notify_all();
    }
}

Log::Turn Log::wait_for_turn(const std::string &firm,
                             std::chrono::system_clock::time_point received) {
    const ExactMoment at = clock_.moment_at(received);
    std::unique_lock lock(mutex_);
    const auto own = waiters_.insert(waiters_.end(), Waiter{firm, at});
    wait_until_it_may(lock, own);
    if (!failure_.empty()) {
        leave(own);
        throw_if_failed();
    }
    own->has_turn = true;
    room_.notify_all();
    return Turn(*this, own);
}

void Log::Turn::give_back() {
    if (Log *const log = std::exchange(log_, nullptr)) {
        const std::lock_guard lock(log->mutex_);
        log->leave(own_);
    }
}

Log::Turn &Log::Turn::operator=(Turn &&other) noexcept {
    give_back();
    log_ = std::exchange(other.log_, nullptr);
    own_ = other.own_;
    return *this;
}

// One that has waited longer goes first, if it may.
bool Log::may_go(Waiters::const_iterator waiter) const {
    const auto goes_first = [this](const Waiter &other) {
        return !other.has_turn && !is_held(other) && has_share(other);
    };
    return has_room() && goes_first(*waiter) && std::none_of(waiters_.begin(), waiter, goes_first);
}

bool Log::has_share(const Waiter &waiter) const {
    return !waiter.is_firms || fair_share_.has_room(waiter.firm);
}

bool Log::is_held(const Waiter &waiter) const {
    return held_from_ && waiter.at >= *held_from_;
}

void Log::answered(std::uint32_t place) {
    const std::lock_guard lock(mutex_);
    fair_share_.answered(place);
    if (!waiters_.empty()) {
        room_.notify_all();
    }
}

std::optional<std::uint32_t> Log::append_clock_behind(std::uint32_t place, Moment deadline) {
    Arrival arrival;
    arrival.verb = "clock ";
    arrival.received = std::chrono::steady_clock::now();
    std::unique_lock lock(mutex_);
    wait_for_room(lock);
    const bool is_late =
        std::any_of(waiters_.begin(), waiters_.end(),
                    [deadline](const Waiter &waiter) { return waiter.at.cut() < deadline; });
    if (next_place_ != place + 1 || is_late) {
        return std::nullopt;
    }
    arrival.at = clock_.exact_now();
    append_here(std::move(arrival), Committer::thread);
    // What was received before it is behind it all the same.
    arrivals_.fence();
    return place + 1;
}

Arrival Log::note_of_now(std::string_view kind, std::string_view text) {
    Arrival arrival;
    arrival.verb = fmt::format("# {} ", kind);
    arrival.rest = fmt::format(" {}", text);
    arrival.received = std::chrono::steady_clock::now();
    arrival.at = clock_.exact_now();
    return arrival;
}

Log::Ticket Log::append_note(std::string_view kind, std::string_view text) {
    Arrival arrival = note_of_now(kind, text);
    const std::lock_guard lock(mutex_);
    throw_if_failed();
    return append_here(std::move(arrival), Committer::thread);
}

Log::Ticket Log::append_act(std::string_view text, const std::string &firm,
                            const std::vector<std::string> &frames) {
    std::vector<Arrival> arrivals{note_of_now(note_kinds::act, text)};
    for (const std::string &frame : frames) {
        arrivals.push_back(arrival_of(firm, std::nullopt, frame));
        arrivals.back().at = arrivals.front().at;
    }
    const std::lock_guard lock(mutex_);
    throw_if_failed();
    Ticket ticket = 0;
    for (Arrival &arrival : arrivals) {
        if (arrival.entry.firm) {
            fair_share_.put(firm);
        }
        ticket = append_here(std::move(arrival), Committer::thread);
    }
    if (!frames.empty()) {
        arrivals_.fence();
    }
    return ticket;
}

Log::Hold::Hold(Log &log, Moment deadline) : log_(log) {
    const std::lock_guard lock(log_.mutex_);
    log_.held_from_ = ExactMoment{std::int64_t{deadline.milliseconds} * 1000};
}

Log::Hold::~Hold() {
    const std::lock_guard lock(log_.mutex_);
    log_.held_from_.reset();
    log_.room_.notify_all();
}

Log::Ticket Log::append_here(Arrival arrival, Committer committer) {
    arrivals_.put(std::move(arrival));
    // Only now: where there was no memory for it, a place that was counted all the same would be a
    // gap of the log for good.
    ++next_place_;
    ++filling_.size;
    // Where there is a second one, its thread may be busy with more for a while.
    if (!writing_ && (committer == Committer::thread || arrivals_.size() > 1)) {
        work_.notify_one();
    }
    return filling_ticket_;
}

void Log::place_arrivals(Filling &filling) {
    for (Arrival &arrival : arrivals_.take()) {
        Entry &entry = arrival.entry;
        if (!entry.number) {
            // A line that no message made was made at its moment.
            arrival.at = std::max(taken_moment_, arrival.at);
        }
        taken_moment_ = std::max(taken_moment_, arrival.at);
        entry.place = ++taken_place_;
        entry.term = term_;
        entry.moment = text_of(taken_moment_.cut());
        entry.received = text_of(arrival.at);
        entry.line.reserve(arrival.verb.size() + entry.moment.size() + arrival.rest.size());
        entry.line.append(arrival.verb).append(entry.moment).append(arrival.rest);
        if (entry.firm) {
            fair_share_.committed(*entry.firm, entry.place);
        }
        filling.received.push_back(arrival.received);
        filling.rows.entries.push_back(std::move(entry));
    }
    fair_share_.batch_taken();
}

} // namespace gateway
