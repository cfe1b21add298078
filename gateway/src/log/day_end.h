// How an operator's order ends the day that goes on.
#ifndef GATEWAY_LOG_DAY_END_H
#define GATEWAY_LOG_DAY_END_H

#include <atomic>

namespace gateway {

enum class DayEnd {
    as_configured,
    once_nothing_is_open, // no new request is taken, and those that are open are waited for
    now,                  // those that are open get no notice
};

// Any thread may ask; the one that commits the log orders it. Of two the later one counts: none
// takes another back.
class OrderedEnd {
  public:
    // It is about to have its place in the log's order: what it forbids is taken no more.
    void announce(DayEnd end) { raise(announced_, end); }
    DayEnd announced() const { return announced_; }
    // It is committed: the day may end.
    void order(DayEnd end) {
        announce(end);
        raise(end_, end);
    }
    DayEnd end() const { return end_; }
    bool is_ordered() const { return end_ != DayEnd::as_configured; }

  private:
    static void raise(std::atomic<DayEnd> &end, DayEnd to) {
        DayEnd now = end;
        while (to > now && !end.compare_exchange_weak(now, to)) {
        }
    }

    std::atomic<DayEnd> announced_{DayEnd::as_configured};
    std::atomic<DayEnd> end_{DayEnd::as_configured};
};

} // namespace gateway

#endif
