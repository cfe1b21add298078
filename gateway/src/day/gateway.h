// The gateway of one day: it connects the firms' sessions with the log and the venue.
#ifndef GATEWAY_DAY_GATEWAY_H
#define GATEWAY_DAY_GATEWAY_H

#include "config/config.h"
#include "day/leader.h"
#include "health/metrics.h"
#include "health/operator_events.h"
#include "health/status.h"
#include "session/engine.h"
#include "session/listening_port.h"
#include "venue/venue_day.h"

#include <atomic>
#include <chrono>
#include <condition_variable>
#include <cstdint>
#include <filesystem>
#include <memory>
#include <mutex>
#include <optional>
#include <shared_mutex>
#include <string>
#include <vector>

#include <spdlog/logger.h>

namespace gateway {

// The status of a process whose log is not the one that was left: it waits for an operator.
constexpr int log_not_accepted = 3;

class Gateway final {
  public:
    // One configuration for each venue, and the file that they come from; the hours of the day,
    // nothing where it is one of UTC that stands alone. Throws std::runtime_error where a log can't
    // be served.
    Gateway(std::filesystem::path path, std::vector<Config> configs,
            std::optional<TradingDay> hours, Metrics &metrics,
            std::shared_ptr<spdlog::logger> events);
    // Ends everything at once.
    ~Gateway();
    Gateway(const Gateway &) = delete;
    Gateway &operator=(const Gateway &) = delete;

    // Feeds the log to the venue, while another gateway speaks too; takes connections when this
    // one does and all of it is answered. A port that is given is open meanwhile, and is closed
    // where another gateway speaks.
    void start(ListeningPort port = {});

    // Has credentials and certificates read again, from this file, by run(); of any thread.
    void ask_to_renew() { is_to_renew_ = true; }

    // The same, and waits for it so long at most. What is at fault in the files, empty where
    // nothing is; nothing where it was not done in time.
    std::optional<std::string> renew_within(std::chrono::milliseconds longest);
    // The firms of the credentials' file that the day has not. Throws std::runtime_error where it
    // is at fault.
    std::vector<std::string> unknown_firms() const;

    // For an operator's commands; of any thread. As long as the lock is kept a day that is open
    // stays so. The leaders are to be had while it is.
    std::shared_lock<std::shared_mutex> keep() { return std::shared_lock(open_mutex_); }
    bool is_open() const { return is_open_; }
    const std::vector<std::unique_ptr<Leader>> &leaders() const { return leaders_; }
    const std::vector<Config> &configs() const { return configs_; }
    // The venues whose log was not accepted, by their place among the configurations; once it has
    // ended.
    const std::vector<std::size_t> &not_accepted() const { return not_accepted_; }
    // Why it has ended, where it failed.
    std::string failure() { return status_.failure().value_or(""); }

    // Asks run() to end; of any thread.
    void ask_to_stop(const std::string &why);

    // Until it is asked to stop, the day ends, or something fails. Logs sessions out, lets the
    // venue answer what came, and commits. Returns the cause of a failure, or nothing.
    std::optional<std::string> run();
    // What it does now, and the part that has been silent longest; of any thread.
    Phase phase() const { return status_.phase(); }
    std::optional<Liveness::Silent> silent() { return status_.liveness().longest(); }
    // What an operator has halted, or keeps halted with the clock, and who can't log on by the list
    // of revoked certificates, now or soon: a line each; of any thread.
    std::vector<std::string> halts() const;
    // The same, and where the log's disk has no room: it asks the disk, which may keep it waiting.
    std::vector<std::string> not_taken() const;
    // Requests that are open now, for people: each investor with its venue, where that has a name.
    // Of any thread.
    std::vector<OpenRequests::Open> open_requests() const;
    // Of the process, after run().
    int exit_status() { return status_.exit_status(); }

  private:
    bool ends_day();
    bool has_day_come_to_its_end() const;
    bool has_operator_ended_it();
    void follow();
    std::unique_ptr<Leader> follow_one(std::size_t at);
    void listen();
    void close_port();
    void open(bool is_open);
    void renew();
    void look_at_ends(const EngineSettings &settings);
    void tell_renewed(const std::string &fault);

    const std::filesystem::path path_;
    const std::vector<Config> configs_;
    const std::optional<TradingDay> hours_;
    std::shared_ptr<spdlog::logger> events_;
    Metrics &metrics_;
    Status status_;
    OperatorEvents engine_events_;
    Engine engine_;
    std::vector<std::unique_ptr<VenueDay>> days_;
    std::vector<std::unique_ptr<Leader>> leaders_; // of the days, once it has their terms
    std::atomic<bool> is_to_renew_{false};
    // Of the list of revoked certificates that is in force.
    std::atomic<std::chrono::sys_seconds> list_end_{std::chrono::sys_seconds::max()};

    std::mutex mutex_; // over the next five; no other is taken under it
    std::condition_variable renewed_;
    std::uint64_t renewals_ = 0;
    std::string renewal_fault_; // of the last one
    std::vector<std::size_t> not_accepted_;
    ListeningPort port_; // until connections are taken

    // Kept by commands, and waited for where it opens and before it ends.
    std::shared_mutex open_mutex_;
    std::atomic<bool> is_open_{false}; // it speaks, and has not begun to end
};

} // namespace gateway

#endif
