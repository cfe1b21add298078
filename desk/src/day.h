// What a firm's traders see of a day: a fold over the journal, the same at once and after a
// restart. The investor's day and the dealer's day say what each message means to them.
#ifndef DESK_DAY_H
#define DESK_DAY_H

#include "journal.h"
#include "message.h"
#include "terms.h"

#include <map>
#include <memory>
#include <optional>
#include <set>
#include <string>
#include <vector>

#include <nlohmann/json_fwd.hpp>

namespace desk {

// What the firm has used of its day, and of its limits.
struct Usage {
    Quantity exposure = 0; // of a dealer's live quotes
    int accepted = 0;      // requests of an investor, quotes of a dealer
    int open = 0;          // requests
};

class Day {
  public:
    static std::unique_ptr<Day> of(Role role);
    virtual ~Day() = default;

    void apply(const Entry &entry);
    // The requests that changed since the last call, by 131.
    std::set<std::string> take_changed();

    virtual nlohmann::json view(const std::string &request) const = 0;
    // All requests, the oldest first.
    const std::vector<std::string> &requests() const { return order_; }
    virtual const Usage &usage() const = 0;

    // The venue's clock is ahead of the desk's by so much, as its last message has it.
    std::chrono::milliseconds clock_offset() const { return clock_offset_; }
    // What is wrong with the day itself, for a person to act on; empty where nothing is.
    const std::string &alarm() const { return alarm_; }
    // The last thing to be told that is about no request.
    const std::optional<Told> &notice() const { return notice_; }

  protected:
    // A message of the firm's.
    struct Sent {
        std::string type;
        std::string request;
        std::string quote;
        std::string trader;
    };

    virtual void sent(const Message &message, const Sent &own, Moment at) = 0;
    virtual void received(const Message &message, Moment at) = 0;
    // Null where there is none.
    virtual Request *named(const std::string &request) = 0;
    // What the journal has of a list of requests.
    virtual void listed(const nlohmann::json &, Moment) {}
    // It had no effect, and never will.
    virtual void failed(const Sent &own, const std::string &why, bool is_refusal, Moment at) = 0;

    void changed(const std::string &request) { changed_.insert(request); }
    void added(const std::string &request) { order_.push_back(request); }
    void set_alarm(const std::string &text) { alarm_ = text; }
    void notice(Moment at, const std::string &text, bool is_refusal);

  private:
    void apply_sent(const Entry &entry);
    void apply_received(const Entry &entry);
    void apply_note(const Entry &entry);
    void claimed(const nlohmann::json &note, Moment at);
    void apply_failure(const std::string &number, const std::string &why, bool is_refusal,
                       Moment at);
    void count(const Message &message);

    std::vector<std::string> order_;
    std::set<std::string> changed_;
    std::map<std::int64_t, Sent> sent_; // by MsgSeqNum (34)
    std::int64_t received_ = 0;         // the last number of the venue's
    std::int64_t venue_number_ = 0;     // ApplSeqNum (1181)
    std::chrono::milliseconds clock_offset_{0};
    std::string alarm_;
    std::optional<Told> notice_;
};

} // namespace desk

#endif
