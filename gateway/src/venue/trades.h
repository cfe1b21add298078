// The trades of a venue's day, by their names.
#ifndef GATEWAY_VENUE_TRADES_H
#define GATEWAY_VENUE_TRADES_H

#include <mutex>
#include <set>
#include <string>

namespace gateway {

// What the venue noted beside its messages: each trade twice, once for each firm, and once more
// where all of a day is given again; and which of them operators have voided. Any thread may call
// it.
class Trades {
  public:
    void add(const std::string &name) {
        const std::lock_guard lock(mutex_);
        names_.insert(name);
    }
    // DATE-INVESTOR-DEALER-K
    bool has(const std::string &name) const {
        const std::lock_guard lock(mutex_);
        return names_.contains(name);
    }
    // Whether that made it void: false where it was.
    bool make_void(const std::string &name) {
        const std::lock_guard lock(mutex_);
        return void_.insert(name).second;
    }

  private:
    mutable std::mutex mutex_;
    std::set<std::string> names_;
    std::set<std::string> void_;
};

} // namespace gateway

#endif
