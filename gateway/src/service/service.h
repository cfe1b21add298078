// Runs the gateway over its trading days.
#ifndef GATEWAY_SERVICE_SERVICE_H
#define GATEWAY_SERVICE_SERVICE_H

#include "config/trading_days.h"
#include "day/gateway.h"
#include "health/condition.h"
#include "health/metrics.h"
#include "operator/admin_command.h"
#include "operator/admin_socket.h"
#include "service/closed_venue.h"
#include "service/day_copying.h"
#include "service/monitor.h"
#include "service/next_configuration.h"
#include "service/overview.h"
#include "service/systemd_notifier.h"

#include <atomic>
#include <condition_variable>
#include <cstdint>
#include <filesystem>
#include <memory>
#include <mutex>
#include <optional>
#include <shared_mutex>
#include <stop_token>
#include <string>
#include <thread>
#include <vector>

#include <spdlog/logger.h>
#include <spdlog/sinks/ringbuffer_sink.h>

namespace gateway {

// The last events, for the page.
using RecentEvents = spdlog::sinks::ringbuffer_sink_mt;

// Opens a gateway for each trading day and ends it with that day. Where a venue's configuration has
// a date of its own, there is that day alone.
class Service final : private AdminScene {
  public:
    // `files` were read from the path, and give these configurations.
    Service(std::filesystem::path path, ConfigFiles files, std::vector<Config> configs,
            std::shared_ptr<spdlog::logger> events, std::shared_ptr<RecentEvents> recent,
            SystemdSocket systemd);

    // Ends the day that goes on, and opens no other; of any thread.
    void ask_to_stop(const std::string &why);

    // Has credentials and certificates read again; of any thread.
    void ask_to_renew();

    // Until it is asked to stop, or a day fails. Returns the status of the process.
    int run();

    // How it is; of any thread.
    Condition condition();

  private:
    // Lets other threads see the gateway of the day as long as it lives.
    class Shown {
      public:
        Shown(Service &service, Gateway &gateway);
        ~Shown();
        Shown(const Shown &) = delete;
        Shown &operator=(const Shown &) = delete;

      private:
        Service &service_;
    };

    int run_days();
    void end_copying(int status);
    std::vector<Config> as_begun(std::vector<Config> configs);
    // The hours are nothing where the day stands alone.
    int run_day(const std::vector<Config> &configs, const std::optional<TradingDay> &hours);
    int run_gateway(const std::vector<Config> &configs, const std::optional<TradingDay> &hours);
    bool wait_for_acceptance(const std::vector<Config> &configs,
                             const std::optional<TradingDay> &hours);
    void open_operator_socket();

    // AdminScene
    HeldDay hold_day() override;
    std::string waits_for() override;
    std::string accept_loss(const std::vector<Act> &acts) override;
    NextDay next_day() override;
    Beside beside() override;

    TradingDay day_after(SystemSeconds now);
    TradingDay day_of_start();
    void keep_hours_of(const Config &config, const TradingDay &day);
    TradingDay day_to_open();
    bool wait_for(const TradingDay &day);
    void refuse_logons(const TradingDay &day);
    void open_door(const TradingDay &day);
    ListeningPort closed_door();
    void watch_files(const std::stop_token &stop);
    void look_at_files(std::string &tried);
    bool wait_a_second();
    void copy_days(const std::string &before);
    void sign_late_ends(const std::string &before);
    void make_copies(const std::string &before, const std::stop_token &stop);
    MonitorSources sources();
    Overview overview();
    void show(const TradingDay &day);
    void is_now(Phase phase);
    // Why it was asked to stop.
    std::string why();

    const std::filesystem::path path_;
    const std::vector<Config> first_;
    Metrics metrics_;
    std::shared_ptr<spdlog::logger> events_;
    std::shared_ptr<RecentEvents> recent_;
    NextConfiguration next_;
    std::stop_source stopping_;
    // Over what other threads see of the day: the next six, and those for the operator below. The
    // locks of the gateway that it shows are taken under it, and it is taken under the two others
    // of this class.
    std::mutex mutex_;
    std::condition_variable changed_;
    std::string why_;
    Gateway *gateway_ = nullptr;   // of the day that goes on
    std::string day_;              // of today, or the next one
    SystemSeconds goes_on_to_{};   // of a day that is open by hours which [day] has no more
    Phase between_ = Phase::opens; // what it does where there is no gateway
    DayCopying copying_;
    Monitor monitor_;
    SystemdNotifier notifier_;

    // Before a day opens; of the service's own thread.
    std::unique_ptr<ClosedVenue> closed_;
    std::uint64_t closed_of_ = 0; // NextConfiguration::changes(), as it was made
    std::string door_fault_;      // that was told
    ListeningPort port_;          // for the day
    std::atomic<bool> is_to_renew_{false};
    std::atomic<std::uint64_t> days_without_copy_{0}; // as the last copying left them

    // For the operator.
    std::shared_mutex day_mutex_; // over the end of a day, which waits for commands
    std::mutex acceptance_mutex_; // one act accepts a loss at a time
    std::string waits_for_ = "the gateway begins";
    std::vector<std::size_t> not_accepted_; // venues whose logs wait, by their places
    std::vector<Config> waiting_configs_;   // of the day that waits for them; none as a rule
    std::unique_ptr<AdminSocket> socket_;   // the first to end
};

} // namespace gateway

#endif
