// The log as the gateway writes it: it commits all waiting entries together, in one order for all.
#ifndef GATEWAY_LOG_LOG_H
#define GATEWAY_LOG_LOG_H

#include "common/moment.h"
#include "health/metrics.h"
#include "log/arrivals.h"
#include "log/chain.h"
#include "log/database.h"
#include "log/entry_feed.h"
#include "log/fair_share.h"
#include "log/seals.h"
#include "log/session_note_line.h"

#include <atomic>
#include <chrono>
#include <condition_variable>
#include <functional>
#include <list>
#include <mutex>
#include <stop_token>
#include <thread>
#include <utility>

namespace gateway {

// Rows are put into the batch that is being filled. It is committed as soon as the one before is
// committed and there is an entry, or somebody waits for it: by the thread that put the entry, so
// that it need not wait for another, or by a thread of the log, where more has come meanwhile. Rows
// that nobody waits for, the copy for readers, are committed behind the entries by themselves, so
// that an entry is not kept waiting for them. Any thread may put rows, and waits where too many are
// there. Of each firm a batch has no more than its share, and of those that wait the one goes first
// that has waited longest. Within a batch messages stand in the order of their receipt, and the
// moment of an entry is that of its receipt, or the one before it if that is later.
//
// Where a commit fails nothing is written any more: every call that needs the log throws, with the
// cause, and `failed` is called once.
class Log {
  public:
    // The number of a batch: what wait() waits for.
    using Ticket = std::uint64_t;
    // A message that has to wait.
    struct Waiter {
        std::string firm;
        ExactMoment at; // of its receipt
        bool is_firms = true;
        bool has_turn = false; // it is about to be put there
    };

    struct Start {
        Entry last; // the last entry of the log
        ConnectionState connections;
        std::uint32_t term = 0; // in which this gateway writes
        // Of each batch. Without one nothing is sealed, and no start takes the log.
        std::optional<Sealer> sealer;
        std::uint32_t seals = 0;    // the last one's number,
        Digest notes{};             // and the running hash of the session notes up to it
        std::size_t waiting = 4096; // rows that may wait
        ShareLimits shares;
        // Is told the place and the line of each note that is committed, by the thread that
        // committed it, which it keeps waiting for nothing.
        std::function<void(std::uint32_t place, const std::string &line)> noted =
            [](std::uint32_t, const std::string &) {};
        // Is called once more entries are on disk, by any thread, also by several at once.
        std::function<void()> stored = [] {};
    };

    // What is committed is put into `feed`.
    Log(Database &database, EntryFeed &feed, DayClock &clock, Metrics &metrics, Start start,
        std::function<void(const std::string &)> failed);
    // Commits what waits.
    ~Log();
    Log(const Log &) = delete;
    Log &operator=(const Log &) = delete;

    // Who commits a message: the log's thread, which is woken for it, or the one that puts it,
    // which calls commit() once it has no more. One that does not is found out by the log's thread
    // a little later.
    enum class Committer { thread, caller };

    // What is known of a message that came.
    struct Came {
        std::uint32_t number = 0; // the session's
        std::uint32_t connection = 0;
        std::chrono::system_clock::time_point at; // of its receipt
    };

    // A turn of a firm's message at the log, which waited for it: kept until the message is put
    // there, or this ends.
    class Turn {
      public:
        Turn() = default;
        Turn(Log &log, std::list<Waiter>::iterator own) : log_(&log), own_(own) {}
        ~Turn() { give_back(); }
        Turn(Turn &&other) noexcept : log_(std::exchange(other.log_, nullptr)), own_(other.own_) {}
        Turn &operator=(Turn &&other) noexcept;

        bool is_held() const { return log_ != nullptr; }
        void give_back();

      private:
        friend class Log;
        Log *log_ = nullptr;
        std::list<Waiter>::iterator own_;
    };

    // A message of a firm: its place and its moment are given here. came is nothing where the
    // gateway speaks for the firm: that waits for no share.
    Ticket append_message(const std::string &firm, const std::optional<Came> &came,
                          std::string_view frame, Committer committer = Committer::thread);
    // The same of a message that its caller commits; but nothing, and nothing was done, where it
    // would have to wait: then wait_for_turn(), and come with the turn.
    std::optional<Ticket> append_at_once(const std::string &firm, const Came &came,
                                         std::string_view frame, Turn turn);
    // Waits until a message that was received then may be put there.
    Turn wait_for_turn(const std::string &firm, std::chrono::system_clock::time_point received);
    // Commits the entries that wait; where another thread is committing they are left to the log's.
    void commit();
    // A sweep of the clock for a deadline, at the moment of now, if this place is the last one and
    // nothing waits that was received before the deadline: then its own place.
    std::optional<std::uint32_t> append_clock_behind(std::uint32_t place, Moment deadline);

    // A note (notes.h) of this kind, at the moment of now. Waits for nothing.
    Ticket append_note(std::string_view kind, std::string_view text);
    // An act of an operator, and what the gateway says in a firm's name for it, in one transaction.
    // Waits for nothing.
    Ticket append_act(std::string_view text, const std::string &firm,
                      const std::vector<std::string> &frames);

    // Messages of firms that were received at a deadline or later wait for as long as it lives;
    // sweeps do not. One at a time.
    class Hold {
      public:
        Hold(Log &log, Moment deadline);
        ~Hold();
        Hold(const Hold &) = delete;
        Hold &operator=(const Hold &) = delete;

      private:
        Log &log_;
    };

    // What happened to a connection: its place, the moment, and the last entry are given here. To
    // one whose Logon was accepted its number is given, too, and returned: it is on disk no later
    // than the first entry that names it. Waits for nothing.
    std::uint32_t put_connection(ConnectionEvent event);
    // What an event of a session puts there, in one transaction: the venue's message that it was
    // given, and the lines of its session notes, in their order.
    struct SessionChange {
        std::string firm;
        std::optional<Sent> given{};
        std::vector<std::string> notes{};
        // The session note that is put with a batch, as long as no other of the firm is: at most
        // one in some milliseconds.
        std::optional<SessionNoteLine> mark{};
    };
    // Returns the batch behind which all is on disk that the session has said so far: its notes,
    // but perhaps for a mark.
    Ticket put(SessionChange change);

    // A signature of what is committed.
    Ticket put_checkpoint(const Checkpoint &checkpoint);
    // Up to where the log is committed.
    Position position();
    // The venue has answered all entries up to this place.
    void answered(std::uint32_t place);

    // Returns when the batch is on disk.
    void wait(Ticket ticket);
    // The same for so long at most: whether it is.
    bool wait_for(Ticket ticket, std::chrono::milliseconds longest);
    // Returns when all that was put so far is on disk, but for rows of the copy that are just being
    // committed by themselves.
    void flush();
    // Whether all entries up to this place are on disk. Waits for nothing.
    bool is_committed(std::uint32_t place) const;
    // Returns when they are: they have to be placed, as those are that the venue was given.
    void wait_for_entry(std::uint32_t place);

    std::uint32_t last_place();
    // The same; what comes from now on stands behind it, whenever it was received.
    std::uint32_t fence();
    // How many messages wait now, for the end of a hold or for room.
    std::size_t waiting();
    // How long ago something was committed last, or the log was opened. The CheckpointSigner has
    // something committed every five seconds.
    std::chrono::steady_clock::duration since_commit();
    // When the commit of now began; nothing where none is waited for.
    std::optional<std::chrono::steady_clock::time_point> commits_since();

    // Why nothing is written any more; empty where it is.
    std::string failure();

  private:
    struct Filling {
        Batch rows; // its entries only once it is taken
        std::vector<std::chrono::steady_clock::time_point> received;
        std::size_t size = 0;
        bool is_whole = true; // not its entries alone
        // A session note says something: no entry is committed without that, since it may be of the
        // answer to a message before.
        bool has_own = false;
    };
    using Waiters = std::list<Waiter>;

    Arrival note_of_now(std::string_view kind, std::string_view text);
    Arrival arrival_of(const std::string &firm, const std::optional<Came> &came,
                       std::string_view frame);
    // The lock is held.
    Ticket append_here(Arrival arrival, Committer committer);
    // Waits for its turn, which ends with this; the lock is held before and after.
    void wait_until_it_may(std::unique_lock<std::mutex> &lock, Waiters::iterator own);
    void leave(Waiters::iterator own);
    void put_notes(const std::string &firm, std::vector<std::string> notes,
                   std::optional<SessionNoteLine> mark);
    void take_due_marks(std::vector<std::string> &marks, bool all);
    // The marks that are ready in front of the other session notes, and those that are due, or all,
    // behind them.
    void put_marks(Filling &filling, bool all);
    bool may_go(Waiters::const_iterator waiter) const;
    bool has_share(const Waiter &waiter) const;
    bool is_held(const Waiter &waiter) const;
    // Gives the arrivals their places and moments. The lock is held.
    void place_arrivals(Filling &filling);
    bool is_empty() const;
    bool has_room() const;
    // Waits for room; the lock is held before and after.
    void wait_for_room(std::unique_lock<std::mutex> &lock);
    void throw_if_failed() const;
    void write(const std::stop_token &stop);
    void write_all(const std::stop_token &stop);
    // False at the end, where nothing is left. The lock is held before and after.
    bool wait_for_work(std::unique_lock<std::mutex> &lock, const std::stop_token &stop);
    // Some thread has the writer from now on. The lock is held.
    void begin_writing();
    void use_lull(std::unique_lock<std::mutex> &lock, int looks);
    // Whether there is what a commit does not wait for. The lock is held.
    bool is_pressing() const;
    // What is to be committed now. The lock is held.
    Filling take(bool all);
    // Commits what is to be committed now. The lock is held before and after; nobody else writes,
    // but while it is told that entries are on disk: many answers leave then.
    void commit_some(std::unique_lock<std::mutex> &lock, bool all);
    void write_rows(Filling &filling);
    // Commits what was put for readers, if it is some, and nothing else waits: so no entry waits
    // for it, as it would in one transaction with it. The lock is held before and after.
    void commit_copies(std::unique_lock<std::mutex> &lock);
    bool has_copies_alone() const;
    Filling take_copies();
    // Notes that entries are on disk, and tells the notes among them.
    void tell_stored(const Filling &filling);
    // While they are committed the venue answers them: what it says of an entry leaves only once
    // that is on disk.
    void give_venue(const Filling &filling);
    void fail(const std::string &cause);

    EntryFeed &entries_;
    DayClock &clock_;
    Metrics &metrics_;
    std::function<void(const std::string &)> failed_;
    std::function<void(std::uint32_t, const std::string &)> noted_;
    std::function<void()> stored_;
    std::unique_ptr<LogWriter> writer_;
    const std::size_t limit_;
    const std::size_t many_; // rows that nobody waits for are no longer let wait

    // Over all that follows up to `committed_end_`. The clock's is the one lock that is taken under
    // it; a commit, the venue and the listeners have none of it.
    std::mutex mutex_;
    std::condition_variable_any work_; // for the log's thread
    std::condition_variable_any done_; // for whoever waits for a commit
    std::condition_variable_any room_; // for whoever has rows
    Filling filling_;
    Arrivals arrivals_;
    FairShare fair_share_;
    Waiters waiters_; // the first that came first
    bool urgent_ = false;
    struct Mark {
        std::optional<SessionNoteLine> note; // that is due
        std::chrono::steady_clock::time_point put_at{};
    };
    std::map<std::string, Mark> marks_;    // by firm
    std::size_t due_marks_ = 0;            // of these, those with a note
    std::vector<std::string> ready_marks_; // that go with the next batch
    std::optional<ExactMoment> held_from_;
    bool writing_ = false; // some thread has the writer
    std::chrono::steady_clock::time_point writing_since_;
    std::chrono::steady_clock::time_point committed_at_ = std::chrono::steady_clock::now();
    Ticket filling_ticket_ = 1;
    Ticket committed_ = 0;
    std::string failure_;
    std::uint32_t next_place_;  // behind the arrivals
    std::uint32_t taken_place_; // the last one that was given
    ExactMoment taken_moment_;  // and its moment, or a later one
    std::atomic<std::uint32_t> committed_place_;
    std::uint32_t last_event_; // place of what happened to a connection
    std::uint32_t last_connection_;
    const std::uint32_t term_;
    Position committed_end_;

    // Of whoever has the writer.
    Chain chain_;
    std::jthread thread_;
};

} // namespace gateway

#endif
