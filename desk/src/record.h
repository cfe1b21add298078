// Holds the day's journal and what the FIX session needs of it. QuickFIX's threads and the thread
// that has the state share it.
#ifndef DESK_RECORD_H
#define DESK_RECORD_H

#include "journal.h"
#include "session_store.h"

#include <condition_variable>
#include <deque>
#include <functional>
#include <map>
#include <memory>
#include <mutex>
#include <optional>
#include <string>
#include <vector>

namespace desk {

// One thing that happened, in the journal's order: an entry, or the begin of an empty day.
using Happening = std::optional<Entry>;

class Record final : public SessionStore {
  public:
    // Opens the journal of today in a folder. `wake` is called, by any thread, when there is
    // something to take. Throws std::runtime_error.
    Record(std::string folder, std::function<void()> wake);

    // Everything since the last call, in the journal's order. Not in the order in which it was
    // posted to an io_context: what a handler posts may be overtaken by what another thread posts
    // meanwhile.
    std::deque<Happening> take();

    // A message of the venue. Waits where the state is far behind.
    void received(const std::string &raw);
    // The message of this number will never be delivered.
    void undelivered(int number);
    // What traders tell each other: JSON.
    void note(const std::string &text);
    // The number of the next message of the session is this one, whatever the journal says: for one
    // that was lost. Before the session is made.
    void skip_to(int number);
    // Nobody takes any more: nothing waits from now on.
    void let_through();

    // SessionStore
    std::string date() const override;
    void begin_day() override;
    int next_sent() const override;
    int next_received() const override;
    void keep(int number, bool is_application, const std::string &raw) override;
    std::vector<std::pair<int, std::string>> kept(int first, int last) const override;

  private:
    std::string path_of(const std::string &date) const;
    void open(const std::string &date);
    void count(const Entry &entry);
    void append(std::unique_lock<std::mutex> &lock, Entry entry);

    const std::string folder_;
    const std::function<void()> wake_;
    mutable std::mutex mutex_; // nothing that takes another lock is called under it
    std::condition_variable taken_;
    // A day that begins leaves the old one to whoever synchronises it.
    std::shared_ptr<Journal> journal_;
    std::string date_;
    std::deque<Happening> waiting_;
    bool lets_through_ = false;
    std::map<int, std::string> sent_;
    int next_sent_ = 1;
    int next_received_ = 1;
};

} // namespace desk

#endif
