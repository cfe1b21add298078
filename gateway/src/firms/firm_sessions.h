// Connects the firms' sessions with their venue's day.
#ifndef GATEWAY_FIRMS_FIRM_SESSIONS_H
#define GATEWAY_FIRMS_FIRM_SESSIONS_H

#include "firms/authenticator.h"
#include "firms/business_rejects.h"
#include "firms/connection_rows.h"
#include "firms/firm_limits.h"
#include "firms/on_behalf.h"
#include "firms/rate_at_limit.h"
#include "firms/reply_rate.h"
#include "log/database.h"
#include "log/log.h"
#include "log/notes.h"
#include "log/session_note_line.h"
#include "recovery/firm_state.h"
#include "session/engine.h"
#include "venue/venue_day.h"

#include <atomic>
#include <chrono>
#include <functional>
#include <map>
#include <mutex>
#include <optional>
#include <string>
#include <string_view>
#include <vector>

namespace gateway {

// What an act ends that a firm has open.
struct FirmEnd {
    std::string firm;
    std::string trader{}; // the quotes of this one alone; empty for all that the firm has
};

// Stands between the engine's sessions and the log: who is let in, what came and what left, and
// what follows a session's end. Sessions call it on the threads of their connections and mailboxes.
class FirmSessions final : private SessionHost {
  public:
    using States = std::map<std::string, FirmState>;

    // The states are those that were recovered. Throws std::runtime_error where the log has a firm
    // that the venue has not.
    FirmSessions(VenueDay &day, Log &log, const States &states);
    FirmSessions(const FirmSessions &) = delete;
    FirmSessions &operator=(const FirmSessions &) = delete;

    // Where the sessions begin.
    std::vector<SessionStart> starts();
    // Ends what a gateway that has ended left behind: connections that have no end in the log, and
    // the sessions that were on them.
    void end_lost(const std::vector<ConnectionEvent> &connections);

    ConnectionRows &rows() { return rows_; }
    // The firms of whose messages some were held back until more entries are committed: once they
    // are. Of any thread, each firm for one.
    std::vector<std::string> take_held_back();
    // Counts what waits for each firm; to be called each second.
    void count_waiting(const Engine &engine);

    // A limit of a firm, as an operator has set it: of the thread that commits the log. Does
    // nothing for a firm that the venue has not.
    void set_limit(const LimitSet &set);

    // A suspension is about to have its place in the log's order: nothing that the firm begins is
    // taken from now on, also before its session has ended, and where one that stands before it
    // there is ended meanwhile.
    void announce_suspension(const std::string &firm);
    // By an operator, or no more, as it is committed: of the thread that commits the log.
    void set_suspended(const std::string &firm, bool is_suspended);

    // By an operator: of the thread that commits the log. Does nothing for a firm that the venue
    // has not.
    void admit(const std::string &firm) { authenticator_.admit(firm); }

    // As long as it is kept, no message of the firm comes into the log. What comes is judged by
    // what is set once it is given back.
    std::unique_lock<std::mutex> hold(const std::string &firm);
    // Whether one message ends all of it, whatever it is.
    bool is_cancel_of_all(const FirmEnd &end) const;
    // Puts an act there with what it has the gateway say in the name of a firm that is held: the
    // cancel of all quotes of a dealer, or of those of one trader, or a pass on each open request
    // of an investor. Returns the act's ticket.
    Log::Ticket put_act_with_end(const FirmEnd &end, const std::string &act);
    // How often an operator has reset the firm's session this day.
    std::uint32_t epoch_of(const std::string &firm) { return firm_of(firm).epoch; }

    // A firm as an operator sees it.
    struct Facts {
        std::string firm;
        std::string since;   // HH:MM:SS.ssssss, of its Logon; empty without a session
        std::string address; // of its connection, ADDRESS:PORT
        std::uint32_t entries = 0;
        std::uint64_t bytes = 0; // of its lines in the log
        std::uint64_t bytes_limit = 0;
        std::map<std::string, std::uint64_t> limits; // all, by their names
        std::map<std::string, std::uint64_t> set;    // those that an operator has set
        bool is_suspended = false;
        bool lacks_report = false; // that it needs
    };
    std::vector<Facts> facts();
    // Whether no message is being judged by what was set before: all that come into the log from
    // now on are judged by what is set now.
    bool are_between_messages();
    // Returns when all that is being judged has its place in the log, or was denied.
    void finish_messages();
    bool has_firm(const std::string &name) const { return firms_.contains(name); }

    // Other credentials from now on, with the limits in them. Returns the firms whose sessions are
    // to end.
    std::vector<std::string> renew(const std::map<std::string, Credentials> &credentials);

  private:
    // One firm, as its venue's day sees it.
    struct Firm {
        Firm(const RateLimits &configured, std::uint64_t used, std::uint64_t most,
             FirmMetrics &counts)
            : limits(configured, used, most), metrics(counts) {}

        FirmLimits limits;
        FirmMetrics &metrics;
        std::atomic<bool> told_of_bytes{false};
        std::atomic<bool> told_of_spare{false};
        // By an operator; and by how many acts that are not committed yet.
        std::atomic<bool> was_suspended{false};
        std::atomic<std::uint32_t> suspensions{0};
        bool is_suspended() const { return suspensions > 0 || was_suspended; }
        std::atomic<bool> is_held_back{false}; // a message waits for an entry's commit

        // Of its session, one event at a time.
        SessionNumbers numbers;
        std::atomic<std::uint32_t> epoch{0};
        std::uint32_t given = 0; // messages of the venue that it was given,
        Digest given_hash{};     // and their running hash
        ReplyRate reply_rate;
        // The first number under which a Reject may be kept that was not dropped; nothing where
        // none is.
        std::optional<std::uint32_t> rejects_from;

        std::atomic<std::uint32_t> entries{
            0}; // messages of the firm in the log, with a number each

        // `mutex` may be held as long as the log is waited for, whose own lock is taken under it.
        // `seen_mutex` is held for a moment, under `mutex` too.

        // Who is there, for the operator.
        void see(const std::string &logon, const std::string &peer) {
            const std::lock_guard lock(seen_mutex);
            since = logon;
            address = peer;
        }
        std::mutex seen_mutex;
        std::string since;
        std::string address;

        std::mutex mutex;                 // of what follows, and over changes of entries
        RateAtLimit rate_at_limit;        // while there is no other room
        std::string cancel_on_disconnect; // a trader, or empty
        Log::Turn turn;                   // at the log, of a message that waited
        // The row of the Logon of the connection that it has.
        std::optional<ConnectionEvent> connection;
        std::chrono::system_clock::time_point last_receipt; // on that one
    };

    static bool is_elsewhere(Firm &firm, const Credentials &own);

    void tell_of_guesses(const LogonFacts &facts);
    void open_firms(const States &states);
    Firm &firm_of(const std::string &name);
    SessionStart start_of(const std::string &name, const Firm &firm);
    std::optional<Taken> denied(const std::string &name, Firm &firm, std::string_view frame,
                                const Receipt &receipt);
    std::optional<NotTaken> why_not(const std::string &name, Firm &firm, std::string_view frame,
                                    const Receipt &receipt);
    bool lacks_room(const Firm &firm) const;
    std::vector<std::string> ends_of(const FirmEnd &end, const Firm &firm);
    std::vector<std::string> cancels_of(const FirmEnd &end, Author author);
    void count_said(const std::string &name, Firm &firm, const std::vector<std::string> &frames);
    void tell_bytes_used_up(const std::string &name, Firm &firm);
    void tell_spare_used_up(const std::string &name, Firm &firm);
    static SessionNoteLine line_of(const std::string &name, const Firm &firm,
                                   const SessionNote &said);
    static std::vector<std::string> lines_of(const std::string &name, const Firm &firm,
                                             const SessionEvent &event);
    static void put_notes(const std::string &name, Firm &firm, const SessionEvent &event,
                          const SessionNumbers &before, Log::SessionChange &change);
    void spooled(const std::function<void()> &put);
    void spool(const std::string &name, const SessionEvent &event,
               std::optional<std::uint32_t> drops_rejects_from);
    void cancel_all_of(const std::string &name, Firm &firm);

    // SessionHost
    Refusal judge(const LogonFacts &facts) override;
    Time judges_from(const std::string &address) override;
    std::uint64_t readings() const override { return authenticator_.readings(); }
    std::uint32_t logon_accepted(const std::string &firm, const ConnectionFacts &facts) override;
    void logon_refused(const std::string &firm, const ConnectionFacts &facts,
                       const std::string &why) override;
    void may_have_lost_store(const std::string &firm, const NumberClimb &climb) override;
    void connection_ended(const std::string &firm, std::uint32_t connection,
                          const std::string &why) override;
    void logged_on(const std::string &firm) override;
    void logged_off(const std::string &firm) override;
    std::uint64_t put(const std::string &firm, const SessionEvent &event) override;
    bool replies_too_much(const std::string &firm) override;
    void wait_stored(std::uint64_t ticket) override;
    bool is_entry_stored(const std::string &firm, std::uint32_t place) override;
    void wait_entry_stored(std::uint32_t place) override { log_.wait_for_entry(place); }
    Taken take(const std::string &firm, const SessionInput &input,
               const SessionEvent &event) override;
    void wait_for_turn(const std::string &firm, const Receipt &receipt) override;
    void give_turn_back(const std::string &firm) override;
    void all_received() override;
    std::vector<KeptMessage> kept_messages(const std::string &firm, std::uint32_t from,
                                           std::size_t limit) override;
    std::uint64_t count_kept(const std::string &firm, std::uint32_t behind) override;
    void put_reset(const std::string &firm, std::uint32_t behind,
                   const SessionEvent &event) override;
    Time was_read(const std::string &firm, std::size_t messages, std::size_t bytes) override;
    Time was_sent_again(const std::string &firm, std::size_t messages) override;

    VenueDay &day_;
    Log &log_;
    Authenticator authenticator_;
    ConnectionRows rows_;
    std::map<std::string, Firm> firms_;
};

} // namespace gateway

#endif
