#include "log/entry_feed.h"

#include <algorithm>

namespace gateway {

namespace {

// Entries that are kept, and the bytes of their lines: a venue that is slower reads them from the
// database.
constexpr std::size_t kept = 8192;
constexpr std::size_t kept_bytes = 4 << 20;

// Entries of a piece, which ends at a multiple of it.
constexpr std::uint32_t piece = 256;

std::size_t bytes_of(const LoggedEntry &logged) {
    return logged.entry.line.size();
}

} // namespace

void EntryFeed::put(const std::vector<LoggedEntry> &entries) {
    put_ahead(entries);
    are_stored();
}

void EntryFeed::put_ahead(const std::vector<LoggedEntry> &entries) {
    if (entries.empty()) {
        return;
    }
    const std::lock_guard telling(telling_mutex_);
    {
        const std::lock_guard lock(mutex_);
        last_place_ = entries.back().entry.place;
        for (const LoggedEntry &logged : entries) {
            keep(logged);
        }
        drop_old();
    }
    if (reader_ != nullptr) {
        reader_->entries_came(entries);
    }
}

void EntryFeed::keep(const LoggedEntry &logged) {
    recent_.push_back(logged);
    recent_bytes_ += bytes_of(logged);
    keep_hash(logged.entry);
}

void EntryFeed::keep_hash(const Entry &entry) {
    if (entry.place % piece == 0) {
        const std::size_t at = entry.place / piece;
        hashes_.resize(std::max(hashes_.size(), at + 1));
        hashes_[at] = entry.hash;
    }
}

std::optional<Digest> EntryFeed::kept_hash(std::uint32_t place) const {
    const std::size_t at = place / piece;
    const bool is_kept = place % piece == 0 && at < hashes_.size() && hashes_[at] != Digest{};
    return is_kept ? std::optional(hashes_[at]) : std::nullopt;
}

void EntryFeed::are_stored() {
    const std::lock_guard lock(mutex_);
    stored_place_ = last_place_;
    drop_old();
}

void EntryFeed::drop_old() {
    while ((recent_.size() > kept || recent_bytes_ > kept_bytes) &&
           recent_.front().entry.place <= stored_place_) {
        recent_bytes_ -= bytes_of(recent_.front());
        recent_.pop_front();
    }
}

void EntryFeed::close() {
    const std::lock_guard telling(telling_mutex_);
    {
        const std::lock_guard lock(mutex_);
        closed_ = true;
    }
    if (reader_ != nullptr) {
        reader_->no_more_come();
    }
}

void EntryFeed::tell(Reader *reader) {
    const std::lock_guard telling(telling_mutex_);
    reader_ = reader;
}

std::optional<std::vector<LoggedEntry>> EntryFeed::from(std::uint32_t place) {
    const std::lock_guard lock(mutex_);
    if (last_place_ < place) {
        return std::vector<LoggedEntry>{};
    }
    if (recent_.empty() || recent_.front().entry.place > place) {
        return std::nullopt;
    }
    const auto first =
        recent_.begin() + static_cast<std::ptrdiff_t>(place - recent_.front().entry.place);
    return std::vector<LoggedEntry>(first, recent_.end());
}

EntryFeed::Piece EntryFeed::piece_from(std::uint32_t place) {
    const std::lock_guard lock(mutex_);
    const Entry *const first = recent_.empty() ? nullptr : &recent_.front().entry;
    const std::uint32_t others = first == nullptr ? last_place_ : first->place - 1;
    const std::uint32_t last = std::min(others, place + (piece - place % piece) % piece);
    // The first one that is kept follows on it.
    const bool is_front = first != nullptr && last == others;
    return {last, is_front ? std::optional(first->before) : kept_hash(last)};
}

void EntryFeed::was_read(const Entry &last) {
    const std::lock_guard lock(mutex_);
    keep_hash(last);
}

std::uint32_t EntryFeed::last_place() {
    const std::lock_guard lock(mutex_);
    return last_place_;
}

bool EntryFeed::is_closed() {
    const std::lock_guard lock(mutex_);
    return closed_;
}

} // namespace gateway
