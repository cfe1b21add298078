// Whether a clock has come to the end of its day.
#ifndef GATEWAY_DAY_END_H
#define GATEWAY_DAY_END_H

#include "common/moment.h"

#include <chrono>
#include <optional>
#include <string>

namespace gateway {

// `now` is the date that the machine's clock says, and `drift` how much further it has gone than
// was measured since it was last read on the day of `date`; nothing where it never was.
DayClock::Day day_by(const std::string &date, const std::string &now,
                     std::optional<std::chrono::milliseconds> drift);

} // namespace gateway

#endif
