#include "service/next_configuration.h"

#include "service/start_check.h"

#include <exception>
#include <sstream>
#include <string>
#include <utility>

namespace gateway {

namespace {

// One at least.
std::vector<std::string> lines_of(const std::string &text) {
    std::istringstream read(text);
    std::vector<std::string> lines;
    for (std::string line; std::getline(read, line);) {
        lines.push_back(line);
    }
    return lines.empty() ? std::vector<std::string>{"no cause is known"} : lines;
}

} // namespace

NextConfiguration::NextConfiguration(std::filesystem::path path, ConfigFiles files, DayRules days,
                                     Metrics &metrics, std::shared_ptr<spdlog::logger> events)
    : path_(std::move(path)), metrics_(metrics), events_(std::move(events)), in_force_(files),
      days_(std::move(days)), tried_(std::move(files)) {}

void NextConfiguration::look(const TradingDay &day) {
    const std::lock_guard lock(mutex_);
    if (tried_.differ_now()) {
        try_files(day);
    }
}

void NextConfiguration::try_for(const TradingDay &day) {
    const std::lock_guard lock(mutex_);
    try_files(day);
}

void NextConfiguration::try_files(const TradingDay &day) {
    tried_ = ConfigFiles();
    try {
        const std::vector<Config> configs = read_configs(tried_, path_, day.date);
        for (const Config &config : configs) {
            check_day(config, day.date);
        }
        tell_doubts(configs.front());
        if (!(tried_ == in_force_)) {
            ++changes_;
            tell_change(day);
        } else if (!faults_.empty()) {
            events_->info("configuration is again the one in force");
        }
        in_force_ = tried_;
        days_ = configs.front().days;
        faults_.clear();
    } catch (const std::exception &fault) {
        faults_ = lines_of(fault.what());
        for (const std::string &line : faults_) {
            events_->error("configuration at fault: {}", line);
        }
        events_->error("configuration at fault: {} opens with the one in force", day.date);
    }
    metrics_.next_configuration_is_right(faults_.empty());
}

void NextConfiguration::tell_doubts(const Config &config) {
    for (const std::string &doubt : doubts_about(config)) {
        events_->warn("configuration in doubt: {}", doubt);
    }
    // The unit gives a gateway the right to write there at its start.
    if (const auto fault = fault_of_copies(config)) {
        events_->warn("configuration in doubt: {}: no day is copied, or not before a restart",
                      fault->words);
    }
}

// Only credentials may come to hold within a day.
void NextConfiguration::tell_change(const TradingDay &day) {
    if (tried_.differ_only_in(credentials_file(tried_, path_), in_force_)) {
        // Whether a reload has read them is not known here: it may have come first.
        events_->info("credentials changed: they are right, and hold from {} on, and today once "
                      "mireseason-admin reload has read them",
                      day.date);
    } else {
        events_->info("configuration changed: it is right, and applies from {} on", day.date);
    }
}

std::vector<Config> NextConfiguration::in_force(std::string_view day) {
    const std::lock_guard lock(mutex_);
    // They were found right, or are those that the day began with.
    std::vector<Config> configs =
        read_configs(in_force_, path_, day, UnknownFirms::count_for_nothing);
    if (!faults_.empty()) {
        take_credentials(configs);
    }
    return configs;
}

// All or nothing. What is at fault was told when the files were tried.
void NextConfiguration::take_credentials(std::vector<Config> &configs) const {
    try {
        std::vector<Config> read = configs;
        for (Config &config : read) {
            config.credentials = read_access(path_, config).credentials;
        }
        configs = std::move(read);
    } catch (const std::exception &) {
    }
}

DayRules NextConfiguration::days_in_force() {
    const std::lock_guard lock(mutex_);
    return days_;
}

std::uint64_t NextConfiguration::changes() {
    const std::lock_guard lock(mutex_);
    return changes_;
}

std::vector<std::string> NextConfiguration::faults() {
    const std::lock_guard lock(mutex_);
    return faults_;
}

} // namespace gateway
