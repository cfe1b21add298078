// The gateway that writes a venue's log and has its firms' sessions.
#ifndef GATEWAY_DAY_LEADER_H
#define GATEWAY_DAY_LEADER_H

#include "day/clock_log.h"
#include "day/sweeper.h"
#include "firms/deliveries.h"
#include "firms/firm_sessions.h"
#include "firms/session_commands.h"
#include "health/silence.h"
#include "log/checkpoint_signer.h"
#include "log/log.h"
#include "recovery/follower.h"
#include "session/engine.h"
#include "venue/venue_day.h"

#include <chrono>
#include <cstdint>
#include <map>
#include <memory>
#include <optional>
#include <string>
#include <vector>

namespace gateway {

// Exists only with a term, in which nobody else writes. It is a Follower that goes on: what it
// commits is fed to the venue, and what the venue gives goes to the sessions.
class Leader final {
  public:
    // Opens the log in this term, at its end. The engine is given the sessions before start().
    // Throws std::runtime_error where the log can't be gone on with.
    Leader(VenueDay &day, std::unique_ptr<Follower> follower, const Follower::End &end,
           std::uint32_t term, Engine &engine);
    // Ends the venue's process, and commits what waits. The engine has stopped.
    ~Leader();
    Leader(const Leader &) = delete;
    Leader &operator=(const Leader &) = delete;

    // Where the firms' sessions begin.
    std::vector<SessionStart> session_starts() { return sessions_.starts(); }
    // Has what the log lacks handed to the engine, so that it has its number before any session
    // logs on; ends what the last gateway left behind; and lets the clock be told to the venue.
    // Does nothing where the gateway is to stop.
    void start();
    // Whether an operator has ended the day here, and nothing is waited for any more; one thread at
    // a time.
    bool has_operator_ended();
    // At the day's end: returns when all notices are handed over that are due by now, or after some
    // seconds, and tells which requests have none.
    void end_requests();
    // Lets the venue answer what came, and hands that over.
    void finish();
    // Ends the venue's process, commits, and signs the end: of the day, or of this gateway alone.
    void end(bool is_end_of_day);

    // Looks whether the day goes on, and whether the venue and the log answer; to be called each
    // second.
    void look();
    // Other credentials from now on: sessions end whose own are gone, others, or over.
    void renew(const std::map<std::string, Credentials> &credentials);
    // Puts a stranger into the log, as often as its rows may be.
    void put_stranger(const ConnectionFacts &facts, const std::string &why);

    // For an operator's commands: of any thread.
    VenueDay &day() { return day_; }
    FirmSessions &sessions() { return sessions_; }
    // Commits an act, at which it takes effect. False where the log has not committed it within so
    // long: it takes effect when it is. Throws ActTooLong, and std::runtime_error where the log is
    // written no more.
    bool commit_act(const Act &act, std::chrono::milliseconds longest);
    // The same of one that ends what a firm has open: its quotes are cancelled, or its requests
    // passed, in the same transaction. All that the firm sent before is ended, and nothing comes
    // between. One of a trader throws where the venue has not answered within a few seconds what
    // came before.
    bool commit_act_with_end(const FirmEnd &end, const Act &act, std::chrono::milliseconds longest);
    // Does what committed acts ordered of firms' sessions.
    void carry_out_orders();
    // The last entry that is committed.
    std::uint32_t last_place() { return log_.position().place; }

  private:
    void count();
    void wait_for_due();

    Leader(VenueDay &day, std::unique_ptr<Follower> follower, const Follower::End &end,
           Log::Start start, Engine &engine);

    void forbid(const std::string &text);
    void send_held_back();
    void take_note(std::uint32_t place, const std::string &line);
    void take_order(const FirmOrdered &ordered);
    void take_notes(const Follower::End &end);
    void carry_out(const FirmOrdered &ordered);
    void look_at_clock();

    VenueDay &day_;
    Engine &engine_;
    const std::unique_ptr<Follower> follower_;
    const std::uint32_t last_before_; // the log's last entry when this gateway began to speak
    const ConnectionState before_;    // likewise
    FirmSessions sessions_;           // outlives the log, which sets their limits
    SessionCommands commands_;        // likewise
    Log log_;
    const std::unique_ptr<CheckpointSigner> signer_;
    Deliveries deliveries_;
    ClockLog clock_log_;
    Stall stall_;
    Sweeper sweeper_;
    std::optional<std::uint32_t> last_of_requests_; // no request is taken behind this place
};

} // namespace gateway

#endif
