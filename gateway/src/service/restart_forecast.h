// Says what a restart at this moment would do to the day that is open.
#ifndef GATEWAY_SERVICE_RESTART_FORECAST_H
#define GATEWAY_SERVICE_RESTART_FORECAST_H

#include "config/trading_days.h"

#include <filesystem>
#include <string>
#include <vector>

namespace gateway {

struct RestartForecast {
    // One for each day and venue, and one for each firm that could not log on then.
    std::vector<std::string> sentences;
    // Else a start would end, wait for an operator, or close a day that is open.
    bool goes_well = true;
    // The day has begun here, so that the venue's files are the next one's; and whether they are
    // others than those that it began with.
    bool has_begun = false;
    bool files_are_others = false;
};

// Who looks. A gateway that runs asks no database, since one that is away keeps it waiting; and
// what it may write is what its unit gave it at its own start.
enum class Viewer { operators_check, running_gateway };

// Reads the configuration's files and the begin and end of each venue's log of today. Makes
// nothing, whoever has the log open, and does not ask the venue's program. What it says is
// printable, whatever stands in the files. Throws nothing.
RestartForecast forecast_restart(const std::filesystem::path &path, SystemSeconds now,
                                 Viewer viewer = Viewer::operators_check);

} // namespace gateway

#endif
