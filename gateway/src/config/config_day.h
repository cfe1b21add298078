// The part [day] of the gateway's configuration.
#ifndef GATEWAY_CONFIG_CONFIG_DAY_H
#define GATEWAY_CONFIG_CONFIG_DAY_H

#include "config/config_files.h"
#include "config/config_section.h"
#include "config/trading_days.h"

#include <string_view>

namespace gateway {

// Reads the file of holidays too, and tries the rules for two years from a date (eight digits) on.
// Throws std::runtime_error that names the file, and in it the line and the key.
DayRules day_rules_of(Section day, ConfigFiles &files, std::string_view date);

} // namespace gateway

#endif
