#include "log/chain.h"

#include "log/session_note_line.h"

#include <utility>

namespace gateway {

void Chain::link(Batch &rows) {
    for (Entry &entry : rows.entries) {
        entry.before = end_.hash;
        entry.hash = hash_of(entry);
        end_.hash = entry.hash;
        end_.place = entry.place;
    }
    for (ConnectionEvent &event : rows.connections) {
        event.before = end_.event_hash;
        event.hash = hash_of(event);
        end_.event_hash = event.hash;
        end_.event = event.place;
    }
}

void Chain::seal(Batch &rows) {
    if (!sealer_ || (rows.entries.empty() && rows.connections.empty() && rows.notes.empty())) {
        return;
    }
    std::string notes = joined_lines(rows.notes);
    ++end_.seal;
    end_.notes = hash_of_notes(end_.notes, notes);
    rows.seal = sealer_->seal(end_);
    rows.seal->notes = std::move(notes);
}

} // namespace gateway
