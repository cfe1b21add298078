// What sessions put into the log: what they say, and the copy that is made for readers.
#include "log/log.h"

#include <utility>

namespace gateway {

namespace {

using namespace std::chrono_literals;

// Of one firm's marks, from one to the next.
constexpr auto between_marks = 5ms;

// So many rows for readers are committed by themselves.
constexpr std::size_t enough_copies = 8;

} // namespace

Log::Ticket Log::put(SessionChange change) {
    std::unique_lock lock(mutex_);
    if (change.given) {
        wait_for_room(lock);
    }
    throw_if_failed();
    if (change.given) {
        filling_.rows.sent.push_back(std::move(*change.given));
        ++filling_.size;
    }
    put_notes(change.firm, std::move(change.notes), std::move(change.mark));
    if (filling_.size == many_) {
        work_.notify_one();
    }
    return is_empty() ? filling_ticket_ - 1 : filling_ticket_;
}

// The lock is held in both.
void Log::put_notes(const std::string &firm, std::vector<std::string> notes,
                    std::optional<SessionNoteLine> mark) {
    if (notes.empty() && !mark) {
        return;
    }
    Mark &own = marks_[firm];
    due_marks_ -= own.note ? 1 : 0;
    own.note.reset();
    if (notes.empty()) {
        own.note = std::move(mark);
        ++due_marks_;
        return;
    }
    filling_.has_own = true;
    for (std::string &note : notes) {
        filling_.rows.notes.push_back(std::move(note));
    }
}

void Log::take_due_marks(std::vector<std::string> &marks, bool all) {
    const auto now = std::chrono::steady_clock::now();
    for (auto &[firm, mark] : marks_) {
        if (mark.note && (all || now - mark.put_at >= between_marks)) {
            marks.push_back(text_of(*mark.note));
            mark.note.reset();
            mark.put_at = now;
            --due_marks_;
        }
    }
}

// Each says of its firm what was so before the note that stands behind it here.
void Log::put_marks(Filling &filling, bool all) {
    std::vector<std::string> &notes = filling.rows.notes;
    notes.insert(notes.begin(), ready_marks_.begin(), ready_marks_.end());
    ready_marks_.clear();
    take_due_marks(notes, all);
}

bool Log::has_copies_alone() const {
    const Batch &rows = filling_.rows;
    return arrivals_.empty() && !urgent_ && !filling_.has_own && rows.connections.empty() &&
           rows.checkpoints.empty() && rows.sent.size() >= enough_copies;
}

// The marks that are due name what is committed here, and no mark comes in front of that. They go
// with the next batch: a note is sealed, and what is sealed is on disk before anything is built on
// it.
Log::Filling Log::take_copies() {
    Filling copies;
    copies.rows.sent.swap(filling_.rows.sent);
    filling_.size -= copies.rows.sent.size();
    take_due_marks(ready_marks_, false);
    return copies;
}

void Log::commit_copies(std::unique_lock<std::mutex> &lock) {
    if (writing_ || !failure_.empty() || !has_copies_alone()) {
        return;
    }
    begin_writing();
    const Filling copies = take_copies();
    room_.notify_all();
    lock.unlock();
    writer_->commit_copies(copies.rows);
    metrics_.copied(copies.rows.sent.size());
    lock.lock();
    writing_ = false;
    committed_at_ = std::chrono::steady_clock::now();
    if (is_pressing()) {
        work_.notify_one();
    }
}

} // namespace gateway
