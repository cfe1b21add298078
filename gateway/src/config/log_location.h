// Where the configuration says that a venue's log is.
#ifndef GATEWAY_CONFIG_LOG_LOCATION_H
#define GATEWAY_CONFIG_LOG_LOCATION_H

#include "config/config.h"
#include "log/database.h"
#include "log/seals.h"

#include <filesystem>
#include <memory>
#include <optional>
#include <string>

namespace gateway {

// Makes the log's folder where that is named after the day, and nothing above it.
std::unique_ptr<Database> open_database(const Config &config);

// What is above a log's folder that is named after the day; empty where its name is of each day.
std::filesystem::path above_folder_of_day(const Config &config);

// Null where there is no log yet. Makes nothing, whoever else has it open. Throws
// std::runtime_error.
std::unique_ptr<LogReader> read_log(const Config &config);

// The configuration of the day that the log has begun with; nothing where there is no log, or it
// can't be read: a start says why.
std::optional<std::string> begun_configuration(const Config &config);

Sealer sealer_of(const Config &config);

} // namespace gateway

#endif
