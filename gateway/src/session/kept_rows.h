// The stretch of a session's messages that is in memory, because the session hands them over again
// soon.
#ifndef GATEWAY_SESSION_KEPT_ROWS_H
#define GATEWAY_SESSION_KEPT_ROWS_H

#include "session/session_event.h"

#include <cstddef>
#include <cstdint>
#include <deque>
#include <vector>

namespace gateway {

// Numbers from `from()` to `through()`, each with what is kept under it or nothing. So much of a
// firm's day is in memory at a time, however long it is. One thread at a time.
class KeptRows {
  public:
    struct Row {
        KeptMessage message;
        std::uint64_t ticket = 0; // of its commit; 0 where it is committed
    };
    struct Found {
        bool is_known = false;    // it need not be read from the log
        const Row *row = nullptr; // what is kept under the number
        std::uint64_t next = 0;   // the next number under which something is kept, or a greater one
    };

    // So many are read at once.
    static constexpr std::size_t chunk = 256;

    // Nothing is known but that all before this number is the log's.
    void forget(std::uint32_t next);
    // What is kept under a number, and which is the next one; up to `end` it has to be known.
    Found find(std::uint64_t number, std::uint64_t end) const;
    // An event has used the numbers from one to another, that one not, and keeps a message under
    // the first of them, perhaps.
    void extend(std::uint32_t from, std::uint32_t to, const KeptMessage *kept,
                std::uint64_t ticket);
    // What was read of the log, from this number to `through` unless it is a whole chunk.
    void put(std::uint32_t from, std::uint32_t through, std::vector<KeptMessage> read);
    // What is before this number is not needed soon.
    void drop_before(std::uint64_t number);

    std::uint32_t through() const { return through_; }

  private:
    // So much waits in memory at most.
    static constexpr std::size_t most_rows = 4 * chunk;

    std::deque<Row> rows_; // in the order of their numbers
    std::uint32_t from_ = 1;
    std::uint32_t through_ = 0;
};

} // namespace gateway

#endif
