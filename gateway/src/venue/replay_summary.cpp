#include "venue/replay_summary.h"

namespace gateway {

void ReplaySummary::add(const Entry &entry) {
    last_place_ = entry.place;
    last_hash_ = entry.hash;
    if (entry.firm) {
        add_message(*entry.firm, entry);
    } else if (entry.line.starts_with("# ")) {
        add_note(entry);
    }
}

void ReplaySummary::add_message(const std::string &firm, const Entry &entry) {
    Came &came = came_[firm];
    ++came.entries;
    came.bytes += entry.line.size();
    if (!entry.number) {
        return;
    }
    if (*entry.number <= came.last_number) {
        came.fell_at = entry.place;
        came.fell_behind = came.last_place;
    }
    came.last_place = entry.place;
    came.last_number = *entry.number;
}

void ReplaySummary::add_note(const Entry &entry) {
    notes_.emplace_back(entry.place, entry.line);
    const auto note = note_of(entry.line);
    if (auto ordered = note ? firm_order_in(*note) : std::nullopt) {
        ordered->place = entry.place;
        orders_[ordered->firm].push_back(*ordered);
    }
}

bool ReplaySummary::ends_with(const Entry &last) const {
    return last_place_ == last.place && (last.place == 0 || last_hash_ == last.hash);
}

std::vector<FirmOrdered> ReplaySummary::orders_of(const std::string &firm) const {
    const auto found = orders_.find(firm);
    return found == orders_.end() ? std::vector<FirmOrdered>() : found->second;
}

} // namespace gateway
