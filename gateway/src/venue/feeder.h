// Feeds the log to one process of the venue.
#ifndef GATEWAY_VENUE_FEEDER_H
#define GATEWAY_VENUE_FEEDER_H

#include "base/process.h"
#include "log/database.h"
#include "log/entry_feed.h"
#include "log/reconnecting_reader.h"

#include <condition_variable>
#include <functional>
#include <mutex>
#include <stop_token>
#include <string>
#include <thread>

namespace gateway {

// From its beginning on. What was committed before, and what the pipe does not take at once, is
// written by a thread of its own. While that one has nothing to do, the thread that commits an
// entry writes it itself: so an entry that comes alone waits for no other thread.
class Feeder final : private EntryFeed::Reader {
  public:
    struct Log {
        Database &database;
        EntryFeed &feed;
        Digest first_hash{}; // of place 0
    };
    // Given entries before they are written.
    using Feeding = std::function<void(std::vector<LoggedEntry>)>;

    // head is what stands in front of the first entry.
    Feeder(Process &process, const Log &log, std::string head, Feeding feeding);
    ~Feeder() override = default;
    Feeder(const Feeder &) = delete;
    Feeder &operator=(const Feeder &) = delete;

    // Feeds no further entry, and ends the process's input after the last one; of any thread.
    void stop() { thread_.request_stop(); }
    // Stops, and waits until it has. What it could not go on for, if that was no end of the
    // process.
    std::string end();

  private:
    void run(const std::stop_token &stop);
    void feed(const std::stop_token &stop);
    // False where nothing is to be fed any more.
    bool wait_for_entries(const std::stop_token &stop);
    std::vector<LoggedEntry> next_entries(ReconnectingReader &reader);
    std::vector<LoggedEntry> read_entries(ReconnectingReader &reader);
    // Throws where there are none, or they do not follow one on the other and on what was fed last.
    void check_chain(const std::vector<LoggedEntry> &entries) const;
    // The lines of the entries, which are fed from now on.
    std::string lines_of(std::vector<LoggedEntry> entries);

    // EntryFeed::Reader
    void entries_came(const std::vector<LoggedEntry> &entries) override;
    void no_more_come() override;

    Process &process_;
    Database &database_;
    EntryFeed &entry_feed_;
    const std::string head_;
    const Feeding feeding_;

    // Taken under that by which EntryFeed tells its reader. EntryFeed's other one, and those of
    // whoever is told of entries, are taken under it.
    std::mutex mutex_;
    std::condition_variable_any changed_;
    bool waits_ = false; // the thread has nothing to do; the next three are its own until it waits
    std::uint32_t next_ = 1; // the place that is fed next
    Digest before_;          // the hash of the one in front of it
    std::string unwritten_;  // what the pipe did not take of the lines
    std::string fault_;      // of the thread
    std::jthread thread_;
};

} // namespace gateway

#endif
