#include "venue/feeder.h"

#include <stdexcept>
#include <utility>

#include <fmt/format.h>

namespace gateway {

Feeder::Feeder(Process &process, const Log &log, std::string head, Feeding feeding)
    : process_(process), database_(log.database), entry_feed_(log.feed), head_(std::move(head)),
      feeding_(std::move(feeding)), before_(log.first_hash),
      thread_([this](const std::stop_token &stop) { run(stop); }) {}

std::string Feeder::end() {
    stop();
    if (thread_.joinable()) {
        thread_.join();
    }
    return fault_;
}

void Feeder::run(const std::stop_token &stop) {
    try {
        entry_feed_.tell(this);
        feed(stop);
    } catch (const std::exception &fault) {
        fault_ = fault.what();
    }
    entry_feed_.tell(nullptr);
    process_.close_input();
}

void Feeder::feed(const std::stop_token &stop) {
    ReconnectingReader reader(database_, stop);
    bool takes = process_.write(head_);
    while (takes && wait_for_entries(stop)) {
        const std::string lines =
            unwritten_.empty() ? lines_of(next_entries(reader)) : std::exchange(unwritten_, {});
        takes = process_.write(lines);
    }
}

bool Feeder::wait_for_entries(const std::stop_token &stop) {
    std::unique_lock lock(mutex_);
    const auto has_some = [this] {
        return !unwritten_.empty() || entry_feed_.last_place() >= next_;
    };
    waits_ = true;
    changed_.wait(lock, stop, [&] { return has_some() || entry_feed_.is_closed(); });
    waits_ = false;
    // A line that was begun is written to its end.
    return stop.stop_requested() ? !unwritten_.empty() : has_some();
}

std::vector<LoggedEntry> Feeder::next_entries(ReconnectingReader &reader) {
    if (auto recent = entry_feed_.from(next_)) {
        check_chain(*recent);
        return std::move(*recent);
    }
    return read_entries(reader);
}

void Feeder::check_chain(const std::vector<LoggedEntry> &entries) const {
    if (entries.empty()) {
        throw std::runtime_error(fmt::format("the log has no entry {}", next_));
    }
    Digest before = before_;
    std::uint32_t place = next_;
    for (const LoggedEntry &logged : entries) {
        check_link(logged.entry, place++, before);
        before = logged.entry.hash;
    }
}

// Of the database, and no entry of those that are kept: somebody may have written there. A piece
// has to be whole, and to end with the hash that is known of it, before anything of it is fed.
std::vector<LoggedEntry> Feeder::read_entries(ReconnectingReader &reader) {
    const EntryFeed::Piece piece = entry_feed_.piece_from(next_);
    const std::uint32_t count = piece.last + 1 - next_;
    std::vector<LoggedEntry> entries;
    for (Entry &entry : reader.ask([&](LogReader &log) { return log.entries(next_, count); })) {
        entries.push_back({std::move(entry), std::chrono::steady_clock::now()});
    }
    check_chain(entries);
    const Entry &last = entries.back().entry;
    if (last.place != piece.last) {
        throw std::runtime_error(fmt::format("the log has no entry {}", last.place + 1));
    }
    if (piece.hash && last.hash != *piece.hash) {
        throw std::runtime_error(fmt::format("entry {} does not follow on entry {} as it is now",
                                             last.place + 1, last.place));
    }
    entry_feed_.was_read(last);
    return entries;
}

std::string Feeder::lines_of(std::vector<LoggedEntry> entries) {
    std::string lines;
    for (const LoggedEntry &logged : entries) {
        lines.append(logged.entry.line).append("\n");
    }
    next_ = entries.back().entry.place + 1;
    before_ = entries.back().entry.hash;
    feeding_(std::move(entries));
    return lines;
}

void Feeder::entries_came(const std::vector<LoggedEntry> &entries) {
    const std::lock_guard lock(mutex_);
    const Entry &first = entries.front().entry;
    if (waits_ && unwritten_.empty() && first.place == next_ && first.before == before_) {
        const std::string lines = lines_of(entries);
        unwritten_ = lines.substr(process_.write_at_once(lines));
        if (unwritten_.empty()) {
            return;
        }
    }
    changed_.notify_one();
}

void Feeder::no_more_come() {
    const std::lock_guard lock(mutex_);
    changed_.notify_one();
}

} // namespace gateway
