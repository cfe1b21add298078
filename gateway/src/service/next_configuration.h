// The configuration that the next trading day opens with.
#ifndef GATEWAY_SERVICE_NEXT_CONFIGURATION_H
#define GATEWAY_SERVICE_NEXT_CONFIGURATION_H

#include "config/config.h"
#include "config/config_files.h"
#include "config/trading_days.h"
#include "health/metrics.h"

#include <cstdint>
#include <filesystem>
#include <memory>
#include <mutex>
#include <string>
#include <vector>

#include <spdlog/logger.h>

namespace gateway {

// Tries the files as soon as one of them changes, and says at once whether they are right, while
// there is time to mend them. The configuration in force is the last one that was found right: a
// day opens with it, and a fault of the files changes nothing. Any thread may ask.
class NextConfiguration {
  public:
    // `files` were found right, and give these days.
    NextConfiguration(std::filesystem::path path, ConfigFiles files, DayRules days,
                      Metrics &metrics, std::shared_ptr<spdlog::logger> events);

    // Tries the files for this day where they are others than those that were tried last.
    void look(const TradingDay &day);
    // Tries them, whether they have changed or not.
    void try_for(const TradingDay &day);

    // What is in force, for this day (eight digits). Where another file is at fault the credentials
    // are those of now all the same: what was taken away does not come back with a day.
    std::vector<Config> in_force(std::string_view day);
    DayRules days_in_force();
    // How often what is in force has become another.
    std::uint64_t changes();
    // What is at fault in the files as they were tried last: a line for each, none where they are
    // right and in force.
    std::vector<std::string> faults();

  private:
    void try_files(const TradingDay &day);
    void tell_doubts(const Config &config);
    void tell_change(const TradingDay &day);
    void take_credentials(std::vector<Config> &configs) const;

    const std::filesystem::path path_;
    Metrics &metrics_;
    std::shared_ptr<spdlog::logger> events_;
    std::mutex mutex_;
    ConfigFiles in_force_;
    DayRules days_;             // of it
    std::uint64_t changes_ = 0; // of it
    ConfigFiles tried_;
    std::vector<std::string> faults_; // as they were tried last
};

} // namespace gateway

#endif
