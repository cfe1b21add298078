// Copies the logs of days that have ended to the place that the configuration names.
#ifndef GATEWAY_SERVICE_DAY_COPIES_H
#define GATEWAY_SERVICE_DAY_COPIES_H

#include "config/config.h"
#include "health/metrics.h"
#include "log/records.h"

#include <filesystem>
#include <memory>
#include <stop_token>
#include <string>
#include <string_view>
#include <vector>

#include <spdlog/logger.h>

namespace gateway {

// A copy is a folder, named after the day, with all that it takes to check the day in five years:
// the log as it was closed, the venue's configuration of its entry 0, the venue's program if that
// is still the one of entry 0, the last checkpoint, and SHA256SUMS. It is read again and compared
// before it has its name: so it is there whole or not at all.
class DayCopies {
  public:
    // Of a log in SQLite, with a place for copies.
    DayCopies(const Config &config, std::shared_ptr<spdlog::logger> events)
        : config_(config), events_(std::move(events)) {}

    // Copies the days before this one (eight digits) that have no copy, or whose log went on since:
    // the copy before is kept beside, as NAME.1, NAME.2 and so on. Then removes the logs that
    // are no longer kept, each once it was found to be what its copy is. Tells what it did, and
    // what can't be done. Returns how many days have no copy then.
    std::size_t make(std::string_view before, const std::stop_token &stop);

  private:
    std::vector<std::string> ended_days(std::string_view before) const;
    std::filesystem::path log_of(std::string_view date) const;
    std::filesystem::path copy_of(std::string_view date) const;
    std::filesystem::path checkpoint_of(std::string_view date) const;
    bool is_copied(const std::string &date, const std::stop_token &stop) const;
    void put_aside(const std::string &date);
    bool try_copy(const std::string &date, const std::stop_token &stop);
    void copy(const std::string &date, const std::stop_token &stop);
    void check_sealed(const std::string &date, const Digest &log) const;
    void try_remove(const std::string &date, const std::stop_token &stop);

    const Config &config_;
    std::shared_ptr<spdlog::logger> events_;
};

// How many copies there are of which the keeper does not say yet that it has sealed them; none
// where no keeper says anything.
std::size_t copies_without_seal(const Config &config);

} // namespace gateway

#endif
