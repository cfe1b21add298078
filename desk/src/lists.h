// Lists of requests that a trader asks at once: the desk asks their lines one after another, as far
// as the firm's limits allow. A fold over the journal.
#ifndef DESK_LISTS_H
#define DESK_LISTS_H

#include "moment.h"
#include "terms.h"

#include <chrono>
#include <optional>
#include <set>
#include <string>
#include <vector>

#include <nlohmann/json_fwd.hpp>

namespace desk {

constexpr std::size_t most_lines = 200; // of one list

struct ListLine {
    enum class State { waiting, sent, refused, stopped };
    std::string bond;
    Side side = Side::buy;
    Quantity quantity = 0;
    State state = State::waiting;
    std::string why; // it was never asked
};

struct AskedList {
    std::string id;
    std::string name;
    std::string login;
    std::string trader; // SenderSubID (50)
    Moment made;
    std::chrono::seconds within{0}; // from a line's request to its deadline
    std::vector<std::string> dealers;
    std::vector<ListLine> lines;

    // The QuoteReqID (131) of a line.
    std::string request_of(std::size_t line) const { return id + "-" + std::to_string(line); }
};

// A line of a list.
struct ListPlace {
    const AskedList *list = nullptr;
    std::size_t line = 0;
};

class Lists {
  public:
    // What the journal has of a list: its begin, its stop, or that a line was refused. Throws
    // nlohmann::json::exception where it is none of these.
    void apply(const nlohmann::json &note, Moment at);
    // A request was sent.
    void sent(const std::string &request);

    const std::vector<AskedList> &all() const { return lists_; }
    const AskedList *named(const std::string &id) const;
    // The line whose request this is.
    std::optional<ListPlace> place_of(const std::string &request) const;
    // The first line that waits, but those of these requests.
    std::optional<ListPlace> next(const std::set<std::string> &but) const;
    // The lists that changed since the last call.
    std::set<std::string> take_changed();

  private:
    AskedList *find(const std::string &id);
    std::vector<AskedList> lists_;
    std::set<std::string> changed_;
};

// As pages have it.
nlohmann::json view_of(const AskedList &list);
// As the journal has its begin.
nlohmann::json note_of(const AskedList &list);

} // namespace desk

#endif
