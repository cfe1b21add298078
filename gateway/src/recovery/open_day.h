// Opens the day of a log, or begins it.
#ifndef GATEWAY_RECOVERY_OPEN_DAY_H
#define GATEWAY_RECOVERY_OPEN_DAY_H

#include "common/moment.h"
#include "config/config.h"
#include "log/database.h"
#include "log/log_guard.h"

#include <memory>

#include <spdlog/logger.h>

namespace gateway {

// The ends of a log, which are one and the same at its begin.
struct OpenedDay {
    Entry first;
    Entry last;
    Reasons reasons; // that the day gives; none where it was begun without notes
};

// Holds the day of the configuration against the one that the log began with. A log that has none
// is begun with it, in this term, once the venue's program has taken the configuration; with the
// reasons of this gateway where the program gives notes. Throws std::runtime_error where the days
// differ, where the program does not take the configuration, or does not give notes on a day with
// reasons, and where there is no term in which to begin it; LogNotAccepted where the guard does not
// take the log.
OpenedDay open_day(const Config &config, Database &database, LogGuard &guard,
                   std::optional<std::uint32_t> term, DayClock &clock,
                   const std::shared_ptr<spdlog::logger> &events);

} // namespace gateway

#endif
