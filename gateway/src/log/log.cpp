#include "log/log.h"

#include <algorithm>
#include <stdexcept>
#include <utility>

#include <fmt/format.h>

namespace gateway {

namespace {

using namespace std::chrono_literals;

// How long rows wait that nobody waits for, if nothing else is committed.
constexpr auto patience = 20ms;

// Rows that nobody waits for, and that are so many, are no longer let wait.
constexpr std::size_t many = 512;

// Bytes of entries that may wait, however few these are.
constexpr std::size_t many_bytes = 4 << 20;

// After so many times without anything the database is given time for what need not be done at a
// commit.
constexpr int looks_to_rest = 5;

// After so many a gateway that has nothing to commit says that it is there: each second.
constexpr int looks_to_be_seen = 50;

Position end_of(const Log::Start &start) {
    Position end{start.term, start.last.place, start.last.hash, 0, {}, start.seals, start.notes};
    if (start.connections.last) {
        end.event = start.connections.last->place;
        end.event_hash = start.connections.last->hash;
    }
    return end;
}

} // namespace

Log::Log(Database &database, EntryFeed &feed, DayClock &clock, Metrics &metrics, Start start,
         std::function<void(const std::string &)> failed)
    : entries_(feed), clock_(clock), metrics_(metrics), failed_(std::move(failed)),
      noted_(std::move(start.noted)), stored_(std::move(start.stored)), writer_(database.writer()),
      limit_(start.waiting), many_(std::min(many, limit_)), fair_share_(start.shares),
      next_place_(start.last.place + 1), taken_place_(start.last.place),
      taken_moment_(ExactMoment::end_of(moment_of(start.last.moment).value_or(Moment{}))),
      committed_place_(start.last.place),
      last_event_(start.connections.last ? start.connections.last->place : 0),
      last_connection_(start.connections.greatest), term_(start.term),
      committed_end_(end_of(start)), chain_(committed_end_, std::move(start.sealer)),
      thread_([this](const std::stop_token &stop) { write(stop); }) {}

Log::~Log() = default;

void Log::commit() {
    try {
        std::unique_lock lock(mutex_);
        if (!writing_ && failure_.empty() && is_pressing()) {
            commit_some(lock, false);
            commit_copies(lock);
        }
    } catch (const std::exception &fault) {
        fail(fault.what());
    }
}

std::uint32_t Log::put_connection(ConnectionEvent event) {
    const std::lock_guard lock(mutex_);
    throw_if_failed();
    const bool is_logon = event.event == connection_events::logon;
    event.place = last_event_ + 1;
    event.term = term_;
    event.moment = text_of(clock_.exact_now());
    event.entry = next_place_ - 1;
    if (is_logon) {
        event.number = last_connection_ + 1;
    }
    filling_.rows.connections.push_back(std::move(event));
    // Its last entry stays in front of what comes.
    arrivals_.fence();
    ++last_event_;
    ++filling_.size;
    return is_logon ? ++last_connection_ : 0;
}

Log::Ticket Log::put_checkpoint(const Checkpoint &checkpoint) {
    const std::lock_guard lock(mutex_);
    throw_if_failed();
    filling_.rows.checkpoints.push_back(checkpoint);
    ++filling_.size;
    return filling_ticket_;
}

Position Log::position() {
    const std::lock_guard lock(mutex_);
    return committed_end_;
}

void Log::wait(Ticket ticket) {
    while (!wait_for(ticket, 1h)) {
    }
}

bool Log::wait_for(Ticket ticket, std::chrono::milliseconds longest) {
    std::unique_lock lock(mutex_);
    if (ticket == filling_ticket_) {
        urgent_ = true;
        work_.notify_one();
    }
    const bool is_done =
        done_.wait_for(lock, longest, [&] { return committed_ >= ticket || !failure_.empty(); });
    throw_if_failed();
    return is_done;
}

void Log::flush() {
    std::unique_lock lock(mutex_);
    const Ticket ticket = is_empty() ? filling_ticket_ - 1 : filling_ticket_;
    const std::uint32_t place = next_place_ - 1;
    lock.unlock();
    wait(ticket);
    lock.lock();
    // Entries may be taken without the rest of their batch.
    done_.wait(lock, [&] { return committed_place_ >= place || !failure_.empty(); });
    throw_if_failed();
}

bool Log::is_committed(std::uint32_t place) const {
    return committed_place_.load() >= place;
}

void Log::wait_for_entry(std::uint32_t place) {
    std::unique_lock lock(mutex_);
    done_.wait(lock, [&] { return is_committed(place) || !failure_.empty(); });
    throw_if_failed();
}

std::uint32_t Log::last_place() {
    const std::lock_guard lock(mutex_);
    return next_place_ - 1;
}

std::uint32_t Log::fence() {
    const std::lock_guard lock(mutex_);
    arrivals_.fence();
    return next_place_ - 1;
}

std::size_t Log::waiting() {
    const std::lock_guard lock(mutex_);
    return waiters_.size();
}

std::optional<std::chrono::steady_clock::time_point> Log::commits_since() {
    const std::lock_guard lock(mutex_);
    return writing_ && failure_.empty() ? std::optional(writing_since_) : std::nullopt;
}

std::chrono::steady_clock::duration Log::since_commit() {
    const std::lock_guard lock(mutex_);
    return std::chrono::steady_clock::now() - committed_at_;
}

std::string Log::failure() {
    const std::lock_guard lock(mutex_);
    return failure_;
}

bool Log::is_empty() const {
    return filling_.rows.empty() && arrivals_.empty() && ready_marks_.empty() && due_marks_ == 0;
}

bool Log::has_room() const {
    return filling_.size < limit_ && arrivals_.bytes() < many_bytes;
}

void Log::wait_for_room(std::unique_lock<std::mutex> &lock) {
    room_.wait(lock, [&] { return has_room() || !failure_.empty(); });
    throw_if_failed();
}

void Log::throw_if_failed() const {
    if (!failure_.empty()) {
        throw std::runtime_error(failure_);
    }
}

void Log::write(const std::stop_token &stop) {
    try {
        write_all(stop);
    } catch (const std::exception &fault) {
        fail(fault.what());
    }
}

void Log::write_all(const std::stop_token &stop) {
    std::unique_lock lock(mutex_);
    while (wait_for_work(lock, stop)) {
        commit_some(lock, stop.stop_requested());
        commit_copies(lock);
    }
}

bool Log::is_pressing() const {
    return urgent_ || !arrivals_.empty() || filling_.size >= many_;
}

bool Log::wait_for_work(std::unique_lock<std::mutex> &lock, const std::stop_token &stop) {
    for (int looks = 1; !stop.stop_requested() && failure_.empty(); ++looks) {
        // Rows that nobody waits for wake nobody: they are found when it looks again.
        const bool pressing =
            work_.wait_for(lock, stop, patience, [&] { return !writing_ && is_pressing(); });
        const bool is_lull =
            !writing_ && std::chrono::steady_clock::now() - committed_at_ >= patience;
        if (pressing || (is_lull && !is_empty())) {
            return true;
        }
        if (is_lull) {
            use_lull(lock, looks);
        } else {
            looks = 0;
        }
    }
    return failure_.empty() && !is_empty();
}

void Log::begin_writing() {
    writing_ = true;
    writing_since_ = std::chrono::steady_clock::now();
}

void Log::use_lull(std::unique_lock<std::mutex> &lock, int looks) {
    begin_writing();
    lock.unlock();
    if (looks == looks_to_rest) {
        writer_->rest();
    }
    if (looks % looks_to_be_seen == 0) {
        writer_->be_seen();
    }
    lock.lock();
    writing_ = false;
}

Log::Filling Log::take(bool all) {
    if (all || urgent_ || arrivals_.empty() || filling_.has_own || filling_.size >= many_) {
        urgent_ = false;
        ++filling_ticket_;
        Filling whole = std::exchange(filling_, Filling{});
        place_arrivals(whole);
        put_marks(whole, all);
        return whole;
    }
    Filling entries;
    entries.is_whole = false;
    entries.rows.notes.swap(ready_marks_);
    // An entry names its connection.
    entries.rows.connections.swap(filling_.rows.connections);
    place_arrivals(entries);
    filling_.size -= entries.rows.entries.size() + entries.rows.connections.size();
    return entries;
}

void Log::commit_some(std::unique_lock<std::mutex> &lock, bool all) {
    begin_writing();
    Filling filling = take(all);
    room_.notify_all();
    lock.unlock();
    write_rows(filling);
    tell_stored(filling);
    lock.lock();
    writing_ = false;
    committed_at_ = std::chrono::steady_clock::now();
    committed_end_ = chain_.end();
    committed_ += filling.is_whole ? 1 : 0;
    done_.notify_all();
    if (is_pressing()) {
        work_.notify_one();
    }
    if (!filling.rows.entries.empty()) {
        lock.unlock();
        stored_();
        lock.lock();
    }
}

void Log::write_rows(Filling &filling) {
    if (filling.rows.empty()) {
        return;
    }
    const auto before = std::chrono::steady_clock::now();
    chain_.link(filling.rows);
    const auto linked = std::chrono::steady_clock::now();
    give_venue(filling);
    const auto given = std::chrono::steady_clock::now();
    chain_.seal(filling.rows);
    const auto begin = std::chrono::steady_clock::now();
    metrics_.sealed((linked - before) + (begin - given));
    writer_->commit(filling.rows);
    const auto end = std::chrono::steady_clock::now();
    metrics_.committed(filling.rows.entries.size(), filling.rows.sent.size(), end - begin);
    for (const auto &received : filling.received) {
        metrics_.logged(end - received);
    }
}

void Log::tell_stored(const Filling &filling) {
    if (filling.rows.entries.empty()) {
        return;
    }
    entries_.are_stored();
    committed_place_ = chain_.end().place;
    for (const Entry &entry : filling.rows.entries) {
        if (!entry.firm && entry.line.starts_with('#')) {
            noted_(entry.place, entry.line);
        }
    }
}

void Log::give_venue(const Filling &filling) {
    std::vector<LoggedEntry> entries;
    entries.reserve(filling.rows.entries.size());
    for (std::size_t at = 0; at < filling.rows.entries.size(); ++at) {
        entries.push_back({filling.rows.entries[at], filling.received[at]});
    }
    entries_.put_ahead(entries);
}

void Log::fail(const std::string &cause) {
    const std::string failure = fmt::format("the log could not be written: {}", cause);
    {
        const std::lock_guard lock(mutex_);
        failure_ = failure;
        done_.notify_all();
        room_.notify_all();
        work_.notify_all();
    }
    entries_.close();
    failed_(failure);
}

} // namespace gateway
