// Recovers the sessions of a venue's day from what is sealed.
#ifndef GATEWAY_RECOVERY_RECOVERED_SESSIONS_H
#define GATEWAY_RECOVERY_RECOVERED_SESSIONS_H

#include "log/note_queue.h"
#include "log/session_note_line.h"
#include "log/spool.h"
#include "recovery/firm_state.h"
#include "recovery/session_recovery.h"
#include "venue/replay_summary.h"

#include <cstdint>
#include <functional>
#include <map>
#include <string>

namespace gateway {

// The fold of docs/RECOVERY.md over entries, session notes and what the venue gives: nothing else
// is read, nothing is repaired, and what is kept under a number is put into the spool. Each call
// throws std::runtime_error that names the firm, and what does not fit. One thread at a time.
class RecoveredSessions {
  public:
    // What was fed to the venue until now.
    using Fed = std::function<ReplaySummary()>;

    // Of a day of this date, YYYYMMDD.
    RecoveredSessions(Spool &spool, NoteQueue &notes, const std::string &date);

    // Takes the notes that wait, in their order, up to one that names what is not there yet: a
    // message of the venue, or the entry of an operator's act.
    void go_on(const Fed &fed);
    // All notes are taken, and the venue has answered all entries: what it gave behind the notes
    // gets its numbers, and the entries are counted. Where the sessions are.
    std::map<std::string, FirmState> finished(const ReplaySummary &fed);

  private:
    struct Firm {
        Firm() { session_recovery_begin(&session); }

        Recovered session{};
        std::uint64_t notes = 0; // that were taken
    };

    bool take(const SessionNoteLine &line, const Fed &fed);
    bool may_take(const SessionNoteLine &line, const Fed &fed) const;
    void take_here(const std::string &name, Firm &firm, const SessionNoteLine &line);
    void keep(const std::string &name, const SessionNoteLine &line);
    void give_up_to(const std::string &name, Firm &firm, std::uint32_t number);
    FirmState state_of(const std::string &name, Firm &firm, const ReplaySummary &fed);
    static void count(const std::string &name, Recovered &session, const ReplaySummary::Came &came);
    static bool is_suspended(const std::string &name, const ReplaySummary &fed);

    Spool &spool_;
    NoteQueue &notes_;
    const std::uint64_t midnight_;
    std::map<std::string, Firm> firms_;
};

} // namespace gateway

#endif
