// Puts the entries of the log's next batch into the order in which their messages were received.
#ifndef GATEWAY_LOG_ARRIVALS_H
#define GATEWAY_LOG_ARRIVALS_H

#include "common/moment.h"
#include "log/records.h"

#include <chrono>
#include <cstddef>
#include <string>
#include <vector>

namespace gateway {

// An entry that has no place and no moment yet.
struct Arrival {
    Entry entry;
    std::string verb; // of its line, in front of the moment
    std::string rest; // and behind it
    ExactMoment at;   // of its receipt
    std::chrono::steady_clock::time_point received;
};

// One thread at a time.
class Arrivals {
  public:
    // Puts it in front of those that were received after it, but not in front of a fence.
    void put(Arrival arrival);
    // What is there stays in front of what comes.
    void fence() { fence_ = waiting_.size(); }

    bool empty() const { return waiting_.empty(); }
    std::size_t size() const { return waiting_.size(); }
    // Of their lines, but for the moments.
    std::size_t bytes() const { return bytes_; }

    // All of them, in their order.
    std::vector<Arrival> take();

  private:
    std::vector<Arrival> waiting_;
    std::size_t fence_ = 0;
    std::size_t bytes_ = 0;
};

} // namespace gateway

#endif
