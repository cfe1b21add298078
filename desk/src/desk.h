// One firm's desk: its FIX session, its journal and the state that follows from it, and what its
// traders may do. QuickFIX's threads and the sender's write to the record; everything else is on
// the thread of `io`, which waits for no disk.
#ifndef DESK_DESK_H
#define DESK_DESK_H

#include "archive.h"
#include "bond_values.h"
#include "command.h"
#include "config.h"
#include "day.h"
#include "events.h"
#include "fix_session.h"
#include "groups.h"
#include "identifiers.h"
#include "programs.h"
#include "query.h"
#include "record.h"
#include "references.h"
#include "trader_limits.h"

#include <atomic>
#include <deque>
#include <functional>
#include <map>
#include <memory>
#include <optional>
#include <set>
#include <string>
#include <vector>

#include <boost/asio/io_context.hpp>
#include <boost/asio/thread_pool.hpp>
#include <nlohmann/json.hpp>

namespace desk {

class Desk final : private FixListener {
  public:
    // Who tells the pages.
    class Audience {
      public:
        virtual ~Audience() = default;
        virtual void tell(const nlohmann::json &message) = 0;
        // All that was told before is of another day.
        virtual void tell_all_anew() = 0;
    };

    // Throws std::runtime_error.
    Desk(boost::asio::io_context &io, const Config &config, Events &events, int first_number);
    ~Desk() override;

    void start(Audience &audience);
    void stop();

    // For a page that begins: who it is of, what the market has, and the state of the session.
    nlohmann::json hello(const Trader &trader) const;
    // All requests of the day, in parts.
    std::vector<nlohmann::json> requests() const;

    // Does what a trader asks for, one command after the other, and tells why it was not done, in
    // words; an empty text where it was sent. The disk is waited for by another thread.
    using Tell = std::function<void(const std::string &why)>;
    void act(const Trader &trader, const Command &command, Tell tell);

    // Answers what a trader's page asks to be told: by a message, by several where it is long, or
    // why there is none.
    struct Answer {
        nlohmann::json message; // null where there is none
        std::string why;
    };
    using Hear = std::function<void(const Answer &answer)>;
    void answer(const Trader &trader, const Query &query, const Hear &hear);

    // What pages are told when it changes: a trader's rights and limits, those of all (for the
    // firm's admin), the firm's references, and its programs.
    nlohmann::json view_of(const Trader &trader) const;
    nlohmann::json limits() const;
    nlohmann::json references() const { return references_.view(); }
    nlohmann::json programs() const { return programs_.view(); }
    // All lists of the day; null at a dealer's desk.
    nlohmann::json all_lists();

    // Null where no program has this token.
    const Program *program_with(const std::string &token) const {
        return programs_.with_token(token);
    }
    void connected(const Program &program, bool is_on);

    // Once a second: tells what may change often and has no hurry.
    void tick();

  private:
    // FixListener
    void received(const std::string &raw) override;
    bool may_leave(const std::string &raw) override;
    bool may_send_again(const std::string &raw) override;
    void logged_on(bool is_on) override;
    void event(const std::string &text) override;

    void wake();
    void apply_all();
    void apply(const Happening &happening, bool &is_anew);
    void tell_changes();
    void tell_requests(const std::set<std::string> &changed);
    nlohmann::json session() const;
    nlohmann::json view(const std::string &request) const;
    void mark_program(nlohmann::json &made) const;
    void mark_list(nlohmann::json &view) const;
    void answer(const query::Value &value, const Hear &hear);
    void answer(const Trader &trader, const query::OneDay &day, const Hear &hear);
    // Has the archive's thread look through these days.
    void look(const Trader &trader, std::vector<std::string> days, const std::string &find,
              std::size_t most, const Hear &hear);
    std::vector<nlohmann::json> found_in(const std::vector<std::string> &days,
                                         const std::string &find, std::size_t most) const;

    // A command that waits for those before it.
    struct Order {
        const Trader *trader;
        Command command;
        Moment at;
        Tell tell;
    };
    void act_next();
    // Null where one more has room among those that wait.
    const char *why_no_room(const Trader &trader, const Command &command) const;
    // Has the sender do what waits for the disk; it says in words why it failed.
    void by_sender(std::function<std::string()> work);
    void sent(const std::string &why);
    std::string act(const Order &order);
    std::string act(const Trader &trader, const command::Ask &ask);
    std::string act(const Trader &trader, const command::Hit &hit);
    std::string act(const Trader &trader, const command::Pass &pass);
    std::string act(const Trader &trader, const command::Quote &quote);
    std::string act(const Trader &trader, const command::Withdraw &withdraw);
    std::string act(const Trader &trader, const command::Decline &decline);
    std::string act(const Trader &trader, const command::CancelAll &);
    std::string act(const Trader &trader, const command::SaveGroup &group);
    std::string act(const Trader &trader, const command::ClaimRequest &claim);
    std::string act(const Trader &trader, const command::ReleaseRequest &release);
    std::string act(const Trader &trader, const command::HandOver &hand_over);
    std::string act(const Trader &trader, const command::SetLimits &limits);
    std::string act(const Trader &trader, const command::SetReference &reference);
    std::string act(const Trader &trader, const command::SetDistance &distance);
    std::string act(const Trader &trader, const command::StopProgram &stop);
    std::string act(const Trader &trader, const command::ReleaseProgram &release);
    std::string act(const Trader &trader, const command::AskList &ask);
    std::string act(const Trader &trader, const command::StopList &stop);
    // Null at a dealer's desk.
    Lists *lists();
    void ask_lists();
    void ask_line(const ListPlace &place);
    void stop_lists(const std::string &why);
    void note_later(nlohmann::json text);
    nlohmann::json view_of_lists(const std::set<std::string> &ids);
    // Why this trader may not do it at all.
    std::string why_may_not(const Trader &trader, const Command &command) const;
    // What stops programs does so before what waits for the disk.
    void stop_programs(const Trader &trader, const Command &command);
    // Into the journal, in this trader's name.
    void note(const Trader &trader, nlohmann::json text);
    void send(const char *type, const Trader &trader, const std::vector<FixField> &fields,
              const std::vector<std::string> &dealers = {});

    boost::asio::io_context &io_;
    const Config &config_;
    Events &events_;
    const BondValues values_;
    GroupStore groups_;
    References references_;
    bool has_new_references_ = false;
    std::set<std::string> asking_; // the requests of lists that are on their way to the sender
    TraderLimits limits_;
    Programs programs_;
    Identifiers identifiers_;
    std::unique_ptr<Day> day_;
    Record record_;
    Audience *audience_ = nullptr; // from start() on
    bool is_on_ = false;
    Moment since_;
    std::string cause_; // why the session is down, as far as a trader needs it
    std::map<std::string, nlohmann::json> told_; // the requests, as pages have them
    std::deque<Order> orders_;
    std::optional<Order> sending_; // that which the sender has
    bool is_sent_ = false;         // whether the sender has the command that is judged
    std::unique_ptr<FixSession> fix_;
    boost::asio::thread_pool sender_{1}; // what leaves waits for the disk on this thread
    const Archive archive_;
    std::vector<std::string> days_;       // of the archive, as they were when the day began
    std::multiset<const Trader *> looks_; // of the archive's thread, which are not answered
    std::atomic<bool> is_over_ = false;
    boost::asio::thread_pool archive_thread_{1};
};

} // namespace desk

#endif
