#include "recovery/early_numbers.h"

#include "config/log_location.h"
#include "log/log_guard.h"
#include "log/session_note_line.h"
#include "recovery/recovered_numbers.h"

#include <stdexcept>
#include <string_view>
#include <utility>

namespace gateway {

// The lock is held.
void EarlyNumbers::open() {
    if (writer_) {
        return;
    }
    sessions_.clear();
    auto database = open_database(config_);
    if (database->reader()->last_entry()) {
        throw std::runtime_error("the day has begun at another gateway");
    }
    const auto term = database->take_over();
    if (!term) {
        throw std::runtime_error("another gateway has the day's log");
    }
    const Sealer sealer = sealer_of(config_);
    LogGuard guard(sealer, config_.checkpoints, nullptr,
                   [this](std::string_view lines) { take_notes(lines); });
    guard.read_on(*database->reader());
    const Position &sealed = guard.sealed();
    chain_.emplace(Position{*term, before_day, {}, 0, {}, sealed.seal, sealed.notes}, sealer);
    sent_.emplace(CheckpointFile::before_opening(config_.checkpoints, sealer));
    writer_ = database->writer();
    database_ = std::move(database);
}

// No entry is there, and the venue has given nothing.
void EarlyNumbers::take_notes(std::string_view lines) {
    const std::uint64_t midnight = midnight_of_session(config_.firms.date);
    for (const std::string_view text : lines_in(lines)) {
        const SessionNoteLine line = read_session_note(text);
        take_note(session_of(line.firm), line, midnight, 0);
    }
}

Recovered &EarlyNumbers::session_of(const std::string &firm) {
    const auto [session, is_new] = sessions_.try_emplace(firm);
    if (is_new) {
        session_recovery_begin(&session->second);
    }
    return session->second;
}

SessionNumbers EarlyNumbers::of(const std::string &firm) {
    const std::lock_guard lock(mutex_);
    open();
    return numbers_of(session_of(firm));
}

void EarlyNumbers::put(const std::string &firm, const SessionEvent &event) {
    const std::lock_guard lock(mutex_);
    try {
        open();
        Batch batch;
        for (const SessionNote &note : event.notes) {
            batch.notes.push_back(text_of(SessionNoteLine{
                firm, 0, note, event.numbers.expected, event.numbers.had, 0, {}, 0}));
        }
        chain_->seal(batch);
        writer_->commit(batch);
        // Before it leaves: whoever cuts it off the log again is found out then.
        sent_->write(sealer_of(config_).sign({0, chain_->end(), {}, false, {}}));
        take_notes(joined_lines(batch.notes));
    } catch (const std::exception &) {
        writer_.reset();
        database_.reset();
        throw;
    }
}

} // namespace gateway
