// How many bytes of a day's log one firm has used, and how many it may use.
#ifndef GATEWAY_FIRMS_DAY_BYTES_H
#define GATEWAY_FIRMS_DAY_BYTES_H

#include <atomic>
#include <cstdint>

namespace gateway {

// One thread counts; any may raise the limit, and ask.
class DayBytes {
  public:
    DayBytes(std::uint64_t used, std::uint64_t limit) : used_(used), limit_(limit) {}

    void add(std::uint64_t bytes) { used_ += bytes; }
    void set_limit(std::uint64_t limit) { limit_ = limit; }
    std::uint64_t used() const { return used_; }
    std::uint64_t limit() const { return limit_; }
    bool are_used_up() const { return used_ >= limit_; }

  private:
    std::atomic<std::uint64_t> used_;
    std::atomic<std::uint64_t> limit_;
};

} // namespace gateway

#endif
