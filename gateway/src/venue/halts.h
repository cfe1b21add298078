// What an operator has halted: the whole venue, or single bonds.
#ifndef GATEWAY_VENUE_HALTS_H
#define GATEWAY_VENUE_HALTS_H

#include "log/notes.h"

#include <mutex>
#include <set>
#include <string>

namespace gateway {

// Any thread may call it; the thread that commits the log sets it. The whole venue is the bond
// without a name.
class Halts {
  public:
    // A halt is about to have its place in the log's order: it counts from now on, also where one
    // that stands before it there is ended meanwhile.
    void announce(const std::string &bond) {
        const std::lock_guard lock(mutex_);
        announced_.insert(bond);
    }
    // What is committed.
    void set(const HaltSet &set) {
        const std::lock_guard lock(mutex_);
        if (!set.is_halted) {
            halted_.erase(set.bond);
            return;
        }
        halted_.insert(set.bond);
        if (const auto own = announced_.find(set.bond); own != announced_.end()) {
            announced_.erase(own);
        }
    }
    bool is_venue_halted() const {
        const std::lock_guard lock(mutex_);
        return is_halted("");
    }
    bool has(const std::string &bond) const {
        const std::lock_guard lock(mutex_);
        return is_halted("") || is_halted(bond);
    }
    // For an operator: `no`, `yes`, or which bonds.
    std::string words() const {
        const std::set<std::string> all = bonds();
        if (is_venue_halted() || all.empty()) {
            return is_venue_halted() ? "yes" : "no";
        }
        std::string text;
        for (const std::string &bond : all) {
            text += (text.empty() ? "" : " ") + bond;
        }
        return text;
    }
    std::set<std::string> bonds() const {
        const std::lock_guard lock(mutex_);
        std::set<std::string> all = halted_;
        all.insert(announced_.begin(), announced_.end());
        all.erase("");
        return all;
    }

  private:
    bool is_halted(const std::string &bond) const {
        return halted_.contains(bond) || announced_.contains(bond);
    }

    mutable std::mutex mutex_;
    std::set<std::string> halted_;
    std::multiset<std::string> announced_; // that are not committed yet
};

} // namespace gateway

#endif
