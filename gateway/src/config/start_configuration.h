// Which configuration a gateway reads if it starts within a day: the day's own, or the next day's.
#ifndef GATEWAY_CONFIG_START_CONFIGURATION_H
#define GATEWAY_CONFIG_START_CONFIGURATION_H

#include "config/config.h"
#include "config/config_files.h"

#include <filesystem>
#include <string>
#include <string_view>
#include <vector>

namespace gateway {

// A venue's configuration as the operator wrote it: where that had no date, the gateway has put
// this day's (eight digits) in front.
std::string as_written(const std::string &configuration, std::string_view day);

// read_configs() for a start on this day. A venue's configuration is the next day's. So where its
// file is missing or at fault, is of another day, or lacks a firm whose credentials are still
// there, a day that has begun goes on all the same: the file is read as the log of that day has it,
// and stays so until it is right.
std::vector<Config> read_configs_of_start(ConfigFiles &files, const std::filesystem::path &path,
                                          std::string_view day);

// read_configs() where this day has begun: the files are the next one's, but for a venue's
// configuration that is of one day.
std::vector<Config> read_next_configs(ConfigFiles &files, const std::filesystem::path &path,
                                      std::string_view day);

} // namespace gateway

#endif
