// Computes the chains of a log's entries and of its connections' events, and the seals over both.
#ifndef GATEWAY_LOG_CHAIN_H
#define GATEWAY_LOG_CHAIN_H

#include "log/database.h"
#include "log/seals.h"

#include <optional>

namespace gateway {

// Of the one that writes the log, batch by batch.
class Chain {
  public:
    // Goes on at the end of a log. Without a sealer nothing is sealed, and no start takes the log.
    Chain(const Position &end, std::optional<Sealer> sealer)
        : end_(end), sealer_(std::move(sealer)) {}

    // Links the rows of a batch to what was written last.
    void link(Batch &rows);
    // Seals all up to the rows that were linked last, which are these, with their session notes.
    void seal(Batch &rows);
    // Where the log ends with what was linked.
    const Position &end() const { return end_; }

  private:
    Position end_;
    std::optional<Sealer> sealer_;
};

} // namespace gateway

#endif
