// Collects what a start needs from the entries that it feeds to the venue.
#ifndef GATEWAY_VENUE_REPLAY_SUMMARY_H
#define GATEWAY_VENUE_REPLAY_SUMMARY_H

#include "log/notes.h"
#include "log/records.h"

#include <cstdint>
#include <map>
#include <string>
#include <utility>
#include <vector>

namespace gateway {

// Nothing of entries is asked of the database a second time, when somebody who writes there could
// have changed it: what firms have there, and what operators did, is of the entries that were fed,
// up to one whose hash a seal covers.
class ReplaySummary {
  public:
    // In order, from place 1 on.
    void add(const Entry &entry);
    // The last one; 0 for none.
    std::uint32_t last_place() const { return last_place_; }
    // Whether this is the last one. There is none behind place 0.
    bool ends_with(const Entry &last) const;
    // The lines of all notes (notes.h), each with its place, in order.
    using Note = std::pair<std::uint32_t, std::string>;
    const std::vector<Note> &notes() const { return notes_; }

    // The messages of a firm.
    struct Came {
        std::uint32_t entries = 0;
        std::uint64_t bytes = 0;       // of their lines
        std::uint32_t last_place = 0;  // of one with a number of the session,
        std::uint32_t last_number = 0; // and that
        std::uint32_t fell_at = 0;     // the last place whose number is not behind the one before,
        std::uint32_t fell_behind = 0; // and the place of that one
    };
    // By firm; no more of those that have none.
    const std::map<std::string, Came> &came() const { return came_; }
    // What operators have ordered of a firm's session, in order, each with its place.
    std::vector<FirmOrdered> orders_of(const std::string &firm) const;

  private:
    void add_message(const std::string &firm, const Entry &entry);
    void add_note(const Entry &entry);

    std::map<std::string, Came> came_;
    std::map<std::string, std::vector<FirmOrdered>> orders_;
    std::vector<Note> notes_;
    std::uint32_t last_place_ = 0;
    Digest last_hash_{};
};

} // namespace gateway

#endif
