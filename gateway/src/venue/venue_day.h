// A venue's day at the gateway: what is shared by the part that follows its log and the part that
// writes it.
#ifndef GATEWAY_VENUE_VENUE_DAY_H
#define GATEWAY_VENUE_VENUE_DAY_H

#include "common/moment.h"
#include "config/config.h"
#include "config/trading_days.h"
#include "health/clock_watch.h"
#include "health/disk_reserve.h"
#include "health/metrics.h"
#include "health/operator_events.h"
#include "health/status.h"
#include "log/database.h"
#include "log/day_end.h"
#include "log/log_guard.h"
#include "log/note_queue.h"
#include "log/spool.h"
#include "venue/halts.h"
#include "venue/live_quotes.h"
#include "venue/open_requests.h"
#include "venue/shown_quotes.h"
#include "venue/trades.h"

#include <atomic>
#include <chrono>
#include <memory>
#include <optional>
#include <string>
#include <vector>

#include <spdlog/logger.h>

namespace gateway {

// Outlives its Follower and its Leader, and is outlived by what it is given.
struct VenueDay {
    // Opens the log's database. hours is nothing where the day is one of UTC that stands alone.
    // Throws std::runtime_error where that can't be done, and where the day is another one than
    // today's in UTC.
    VenueDay(const Config &config, Metrics &metrics, Status &status,
             std::shared_ptr<spdlog::logger> events, OperatorEvents &told,
             std::optional<TradingDay> hours = std::nullopt);

    ~VenueDay();
    VenueDay(const VenueDay &) = delete;
    VenueDay &operator=(const VenueDay &) = delete;

    // Ends the gateway where the day does not go on, and tells where the machine's clock was set;
    // to be called each second, by one thread.
    void look_at_clock();
    // What the kernel said of the clock at that look, and by how much the clock was set since this
    // was asked last; by the same thread.
    const KernelClock &kernel_clock() const { return kernel_clock_; }
    // Tells where the reserve on the log's disk is reached, and where it is no more; to be called
    // each second by the one thread of a gateway that speaks.
    void look_at_disk();
    std::vector<std::chrono::microseconds> take_steps();
    // All steps that no operator has accepted. Any thread.
    std::chrono::microseconds clock_was_set_by() const;
    // What the log says of it, once that is committed: by one thread. A step that was measured here
    // is counted already.
    void take_clock_accepted();
    void take_step(std::chrono::microseconds step, bool was_measured_here);
    // For events: which venue it is, where there are several.
    std::string of_venue() const;

    const Config &config;
    const std::optional<TradingDay> hours;
    Metrics &metrics;
    Status &status;
    const std::shared_ptr<spdlog::logger> events;
    OperatorEvents &told;
    OpenRequests open_requests;
    Trades trades;
    ShownQuotes shown_quotes;
    LiveQuotes live_quotes;
    Halts halts;
    OrderedEnd ordered_end;
    DayClock clock;
    LogGuard guard;
    const std::unique_ptr<Database> database;
    // Nobody else writes the log: this gateway speaks, or is about to.
    std::atomic<bool> has_term{false};
    // False once the clock was set by more than two seconds, at once or in several steps: no
    // request and no quote is taken until an operator says that it is right, also where the gateway
    // is started again.
    std::atomic<bool> clock_is_right{true};
    // By how much the clock was set since then, in microseconds, as the log has it; and by how much
    // beside that, as was measured here: the log may stall.
    std::atomic<std::chrono::microseconds::rep> clock_set_by{0};
    std::atomic<std::chrono::microseconds::rep> clock_set_meanwhile{0};
    const DiskReserve reserve;
    // What sessions may have to send again.
    Spool spool;
    // What the guard has verified, and no session was recovered by yet.
    NoteQueue session_notes;

  private:
    void tell_if_clock_was_set();

    ClockWatch clock_watch_;
    bool told_of_disk_ = false;
    KernelClock kernel_clock_ = read_kernel_clock();
    ClockSteps steps_;
};

} // namespace gateway

#endif
