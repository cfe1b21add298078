// Runs the venue's process: feeds it the log, reads it, and starts it again if it ends.
#ifndef GATEWAY_VENUE_VENUE_H
#define GATEWAY_VENUE_VENUE_H

#include "base/process.h"
#include "common/moment.h"
#include "health/metrics.h"
#include "log/database.h"
#include "log/entry_feed.h"
#include "log/reasons.h"
#include "venue/feeder.h"
#include "venue/replay_summary.h"

#include <chrono>
#include <condition_variable>
#include <cstdint>
#include <deque>
#include <exception>
#include <memory>
#include <mutex>
#include <optional>
#include <stop_token>
#include <string>
#include <string_view>
#include <thread>
#include <vector>

#include <spdlog/logger.h>

namespace gateway {

// The entry that a message of the venue answers.
struct AnsweredEntry {
    std::uint32_t place = 0;
    std::uint32_t number = 0; // of the session, or 0
    Moment moment;
    std::string_view line; // as it was fed; as long as the listener is told
};

// What the venue says, told on the thread that reads it.
class VenueListener {
  public:
    virtual ~VenueListener() = default;

    // The process was started; it is fed the log from its beginning. Returns when all that it said
    // before is in the log.
    virtual void venue_starts() = 0;
    // A message for a firm, and what is noted beside it. The frame has SOH.
    virtual void venue_gave(const AnsweredEntry &entry, std::string firm, std::string frame,
                            std::optional<VenueNote> note) = 0;
    // All messages for this entry were given. deadline is the earliest of a request, if there is
    // one. Place 0: the configuration was read.
    virtual void venue_answered(std::uint32_t place, std::optional<Moment> deadline) = 0;
    // All that it has said so far was told.
    virtual void venue_pauses() = 0;
    // The venue is no more, for this cause. Told once.
    virtual void venue_failed(const std::string &cause) = 0;
};

// One thread reads the venue; a Feeder feeds it, which waits for nothing but the log and the pipe.
class Venue {
  public:
    struct Settings {
        std::vector<std::string> command;
        std::string configuration; // ends in a line feed
        unsigned starts = 3;       // within a minute
        bool confined = false;     // without network, keys and database
    };

    Venue(Settings settings, Database &database, EntryFeed &feed, const Digest &first_hash,
          VenueListener &listener, Metrics &metrics, std::shared_ptr<spdlog::logger> events);
    // Ends the process.
    ~Venue();
    Venue(const Venue &) = delete;
    Venue &operator=(const Venue &) = delete;

    void start();
    // Feeds no more: the venue answers what it has and ends. Returns when it ended; one that does
    // not end within ten seconds is killed.
    void stop();
    // Kills the process, and starts no other.
    void abandon();
    // What was fed to the process of now.
    ReplaySummary replay_summary();

  private:
    // The process that stop() may have to kill, for as long as it lives.
    class Running {
      public:
        Running(Venue &venue, Process &process) : venue_(venue) { venue_.set_running(&process); }
        ~Running() { venue_.set_running(nullptr); }
        Running(const Running &) = delete;
        Running &operator=(const Running &) = delete;

      private:
        Venue &venue_;
    };

    // An entry that was fed and is not answered yet.
    struct Fed {
        AnsweredEntry entry;
        std::string line; // that it has
        std::chrono::steady_clock::time_point received;
    };

    // A message for the entry that waits for its mark.
    struct Given {
        std::string firm;
        std::string frame;
        std::optional<VenueNote> note;
    };

    void run(std::stop_token stop);
    // From the start of a process to its end; what is thrown is no matter of another start.
    std::string run_once(std::stop_token stop);
    std::exception_ptr serve(Process &process, const std::stop_token &stop);
    void set_running(Process *process);
    void note_fed(std::vector<LoggedEntry> entries);
    std::exception_ptr read_all(Process &process);
    void read(Process &process);
    void take_line(std::string_view line);
    void take_message(std::string_view line);
    void take_note(std::string_view line);
    void give_last();
    void take_mark(std::string_view line);
    std::optional<Fed> take_fed();
    void listen_to_errors(Process &process);
    void take_words(const std::string &line);
    bool may_start();

    Settings settings_;
    const Feeder::Log log_;
    VenueListener &listener_;
    Metrics &metrics_;
    std::shared_ptr<spdlog::logger> events_;
    const std::size_t lines_before_; // of the venue's input, in front of the first entry

    std::mutex mutex_;
    std::condition_variable changed_;
    std::deque<Fed> fed_;
    std::string last_words_;
    Process *running_ = nullptr;
    bool ended_ = false;
    // Of the reading thread: how many lines are answered, and the last message, behind which its
    // note may come.
    std::size_t answered_lines_ = 0;
    std::optional<Given> last_given_;

    std::deque<std::chrono::steady_clock::time_point> starts_;
    ReplaySummary replay_summary_; // under the lock
    std::jthread thread_;
};

} // namespace gateway

#endif
