// Hands the log's entries to whatever feeds the venue.
#ifndef GATEWAY_LOG_ENTRY_FEED_H
#define GATEWAY_LOG_ENTRY_FEED_H

#include "log/records.h"

#include <chrono>
#include <deque>
#include <mutex>
#include <optional>
#include <vector>

namespace gateway {

// An entry that is in the log, or is being put there, and when its message came.
struct LoggedEntry {
    Entry entry;
    std::chrono::steady_clock::time_point received;
};

// The entries that the venue is given: whoever commits them, or sees that another gateway did, puts
// them here. The latest ones are kept. Older ones are read from the database in pieces, and each
// has to end with the hash that it had when it was put here, or read first: so nobody who writes to
// the database changes what a venue is fed again. These hashes are all that grows with the day, and
// not without end: they are 32 bytes for 256 entries, whose lines are many times as long, and
// `day_bytes` limits those of each firm.
//
// A venue may be given an entry while that is being committed: what it answers is held back until
// the commit is done (SessionHost::is_entry_stored), and where the commit fails this gateway ends,
// its venue with it.
class EntryFeed {
  public:
    // Is told of what is put, on the thread that puts it, which it keeps waiting for nothing.
    class Reader {
      public:
        virtual ~Reader() = default;

        virtual void entries_came(const std::vector<LoggedEntry> &entries) = 0;
        virtual void no_more_come() = 0;
    };

    // All up to this place are in the log.
    explicit EntryFeed(std::uint32_t last_place)
        : last_place_(last_place), stored_place_(last_place) {}

    // In order, and without a gap; one thread at a time. They are in the log.
    void put(const std::vector<LoggedEntry> &entries);
    // The same of entries whose commit begins, and that it is done. However many they are, they are
    // kept until then: the database does not have them.
    void put_ahead(const std::vector<LoggedEntry> &entries);
    void are_stored();
    // No more come.
    void close();

    // Who is told from now on, null for nobody. The one before is not told any more when this
    // returns.
    void tell(Reader *reader);

    // The entries from a place on: none where they are still to come, nothing where they are in the
    // database alone.
    std::optional<std::vector<LoggedEntry>> from(std::uint32_t place);
    // Entries that the database alone has, from a place on: up to this one, whose hash is known
    // where they were put here, or read before. What ends otherwise is no piece of this log.
    struct Piece {
        std::uint32_t last = 0;
        std::optional<Digest> hash{};
    };
    Piece piece_from(std::uint32_t place);
    // A piece was read up to this entry, whose hash was computed, as those in front of it were.
    void was_read(const Entry &last);
    std::uint32_t last_place();
    bool is_closed();

  private:
    // The lock is held.
    void keep(const LoggedEntry &logged);
    void keep_hash(const Entry &entry);
    std::optional<Digest> kept_hash(std::uint32_t place) const;
    void drop_old();

    std::mutex telling_mutex_; // over the calls of the reader; taken before the other
    Reader *reader_ = nullptr;

    std::mutex mutex_;
    std::uint32_t last_place_;
    std::uint32_t stored_place_;
    std::deque<LoggedEntry> recent_;
    std::size_t recent_bytes_ = 0; // of their lines
    std::vector<Digest> hashes_;   // of the last entry of each piece; zeros where it is not known
    bool closed_ = false;
};

} // namespace gateway

#endif
