// Watches the machine's clock: whether it keeps pace with the time since boot, and what the kernel
// says of it.
#ifndef GATEWAY_HEALTH_CLOCK_WATCH_H
#define GATEWAY_HEALTH_CLOCK_WATCH_H

#include <chrono>
#include <cstddef>
#include <functional>
#include <optional>
#include <utility>
#include <vector>

namespace gateway {

// By more than this a clock was set so far that moments of the day can't be told from it.
constexpr auto longest_step = std::chrono::seconds(2);

// One thread looks.
class ClockWatch {
  public:
    struct Reading {
        std::chrono::microseconds time;       // the machine's clock
        std::chrono::microseconds since_boot; // goes on while the machine sleeps, too
    };
    using Read = std::function<Reading()>;

    explicit ClockWatch(Read read = &read_now);

    // To be called each second. By how much the clock was set meanwhile, forward or back, where
    // that is more than 100 ms: at once, or little by little beyond what a clock is slewed by.
    std::optional<std::chrono::microseconds> look();

    static Reading read_now();

  private:
    const Read read_;
    Reading last_;
    std::chrono::microseconds set_by_{0}; // since the last step that was told, but for slewing
};

// Steps by which the clock was set, until there is a log to put them into.
class ClockSteps {
  public:
    // Those behind the first ones become one with the last of these.
    void put(std::chrono::microseconds step);
    // All of them, and none is left.
    std::vector<std::chrono::microseconds> take() { return std::exchange(steps_, {}); }

  private:
    static constexpr std::size_t most = 64;

    std::vector<std::chrono::microseconds> steps_;
};

// What the kernel says of its clock (adjtimex).
struct KernelClock {
    bool is_synchronised = false;
    std::chrono::microseconds greatest_error{0};
};
KernelClock read_kernel_clock();

} // namespace gateway

#endif
