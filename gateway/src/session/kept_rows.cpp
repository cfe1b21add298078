#include "session/kept_rows.h"

#include <algorithm>
#include <limits>
#include <utility>

namespace gateway {

namespace {

constexpr std::uint64_t none = std::numeric_limits<std::uint32_t>::max();

bool is_before(const KeptRows::Row &row, std::uint64_t number) {
    return row.message.number < number;
}

} // namespace

void KeptRows::forget(std::uint32_t next) {
    rows_.clear();
    from_ = next;
    through_ = next - 1;
}

KeptRows::Found KeptRows::find(std::uint64_t number, std::uint64_t end) const {
    if (number < from_ || number > through_) {
        return {};
    }
    auto found = std::lower_bound(rows_.begin(), rows_.end(), number, is_before);
    const bool is_there = found != rows_.end() && found->message.number == number;
    const Row *const row = is_there ? &*found : nullptr;
    if (is_there) {
        ++found;
    }
    const bool has_next = found != rows_.end();
    return {is_there || has_next || through_ + std::uint64_t{1} >= end, row,
            has_next ? found->message.number : none};
}

// Where too much waits the stretch ends, and the rest is read once it is asked for.
void KeptRows::extend(std::uint32_t from, std::uint32_t to, const KeptMessage *kept,
                      std::uint64_t ticket) {
    if (from != through_ + 1 || to == from || rows_.size() >= most_rows) {
        return;
    }
    if (kept != nullptr) {
        rows_.push_back({*kept, ticket});
    }
    through_ = to - 1;
}

void KeptRows::put(std::uint32_t from, std::uint32_t through, std::vector<KeptMessage> read) {
    const bool is_chunk = read.size() >= chunk && read.back().number <= through;
    std::erase_if(read, [through](const KeptMessage &row) { return row.number > through; });
    const std::uint32_t last = is_chunk ? read.back().number : through;
    // What came meanwhile stands behind what was read; or the rest of that has to be read first.
    if (last + 1 != from_) {
        rows_.clear();
        through_ = last;
    }
    from_ = from;
    for (auto message = read.rbegin(); message != read.rend(); ++message) {
        rows_.push_front({std::move(*message), 0});
    }
}

void KeptRows::drop_before(std::uint64_t number) {
    while (!rows_.empty() && is_before(rows_.front(), number)) {
        rows_.pop_front();
    }
    if (number > from_ && number <= through_ + std::uint64_t{1}) {
        from_ = static_cast<std::uint32_t>(number);
    }
}

} // namespace gateway
