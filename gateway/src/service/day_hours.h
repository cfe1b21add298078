// Keeps the hours by which a day began, also when the gateway's process has ended.
#ifndef GATEWAY_SERVICE_DAY_HOURS_H
#define GATEWAY_SERVICE_DAY_HOURS_H

#include "config/config.h"
#include "config/trading_days.h"

#include <optional>
#include <string_view>
#include <vector>

namespace gateway {

// Keeps the hours of the day that opens, in a file beside its checkpoints. Throws
// std::runtime_error.
void keep_hours(const Config &config, const TradingDay &day);

// The hours that were kept last; nothing where there are none, or the file is of another form.
std::optional<TradingDay> kept_hours(const Config &config);

// Whether the last checkpoint of a day (eight digits) says that the day goes on.
bool goes_on(const Config &config, std::string_view date);

// The day that began here and has not ended, by the hours that it began with, where by those of now
// it would not be open: `by_rules` is the first day that these give. Nothing as a rule. What they
// say of the end of that very day counts.
std::optional<TradingDay> day_that_goes_on(const std::vector<Config> &configs,
                                           const TradingDay &by_rules, SystemSeconds now);

} // namespace gateway

#endif
