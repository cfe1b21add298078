// Follows a venue's day, as every gateway does: it feeds the log to a venue of its own, and takes
// what that gives.
#ifndef GATEWAY_RECOVERY_FOLLOWER_H
#define GATEWAY_RECOVERY_FOLLOWER_H

#include "health/silence.h"
#include "log/entry_feed.h"
#include "recovery/open_day.h"
#include "recovery/recovered_sessions.h"
#include "venue/message_sink.h"
#include "venue/venue.h"
#include "venue/venue_day.h"
#include "venue/venue_progress.h"

#include <atomic>
#include <chrono>
#include <functional>
#include <map>
#include <mutex>
#include <optional>
#include <string>
#include <vector>

namespace gateway {

// Feeds the venue all that is committed, whoever writes the log, and recovers the sessions by what
// it gives and what is sealed. Writes nothing but the begin of a log that has none. Once this
// gateway speaks, what the venue gives goes to the Leader's sink.
class Follower final : private VenueListener {
  public:
    // How far the log is when nobody else writes any more.
    struct End {
        Entry last;
        std::map<std::string, FirmState> states;
        std::vector<ReplaySummary::Note> notes; // in order
    };

    // Starts the venue's process. Where the log has no begin, it is begun in this term. Throws
    // std::runtime_error where the log is of another day, and where there is neither.
    Follower(VenueDay &day, std::optional<std::uint32_t> term);
    // Ends the venue's process.
    ~Follower() override;
    Follower(const Follower &) = delete;
    Follower &operator=(const Follower &) = delete;

    // Follows a gateway that writes, until this one may write: its term then. Nothing where the
    // gateway is to stop. `may` says whether it may take over at all. Throws std::runtime_error
    // where the sessions do not follow from the log and what the venue gives.
    std::optional<std::uint32_t> follow(const std::function<bool()> &may);
    // Reads the log of a gateway that has ended to its end. Returns when the venue has answered all
    // of it and the sessions are recovered, or nothing when the gateway is to stop; throws as
    // follow().
    std::optional<End> catch_up();
    // Gives the sink what the venue gives from now on.
    void give_to(MessageSink &sink) { sink_ = &sink; }
    // Ends the venue's process: it is fed no more, and answers what it has. Returns when it has
    // ended.
    void end_venue();
    // The same, and what it gives is dropped: the next start gives it again.
    void close();

    // Looks whether the venue answers; to be called each second, with the last place of the log.
    // How long it has not. Throws std::runtime_error where that is longer than a venue may be
    // silent.
    std::chrono::steady_clock::duration look_at_venue(std::uint32_t last_place);

    VenueProgress &progress() { return progress_; }
    // Whoever writes the log puts there what it committed.
    EntryFeed &entry_feed() { return entry_feed_; }

  private:
    Follower(VenueDay &day, const OpenedDay &opened);

    void tell_if_ready();
    bool may_take_over();
    bool read_on(LogReader &log);
    std::optional<ReplaySummary> all_answered(LogWriter &writer);
    void check_is_due(const std::string &firm, const GivenMessage &message) const;
    void check_given(std::uint32_t place) const;

    // VenueListener
    void venue_starts() override;
    void venue_gave(const AnsweredEntry &entry, std::string firm, std::string frame,
                    std::optional<VenueNote> note) override;
    void venue_answered(std::uint32_t place, std::optional<Moment> deadline) override;
    void venue_pauses() override;
    void venue_failed(const std::string &cause) override;

    VenueDay &day_;
    Entry last_;                // of the log, as far as it was read
    const std::uint32_t found_; // the last place when the venue was started
    const Reasons reasons_;     // the day's; none where it gives none
    bool ready_ = false;        // it was answered
    EntryFeed entry_feed_;
    RecoveredSessions recovered_;
    VenueProgress progress_;
    Silence silence_;
    std::mutex beginning_mutex_; // over the begin of each process
    std::atomic<MessageSink *> sink_{nullptr};
    // Of the thread that reads the venue: how many messages the process of now has given each firm,
    // and the last place that one of them all has answered.
    std::map<std::string, std::uint32_t> given_;
    std::uint32_t answered_ = 0;

    Venue venue_; // whose threads use all the others
};

} // namespace gateway

#endif
