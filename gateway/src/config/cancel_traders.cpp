#include "config/cancel_traders.h"

#include "config/firm_row.h"

#include <algorithm>

#include <fmt/format.h>

namespace gateway {

std::vector<std::string> take_cancel_traders_of_day(Config &config) {
    std::vector<std::string> told;
    for (const std::string &firm : config.firms.names) {
        const auto own = config.credentials.find(firm);
        if (own == config.credentials.end() || own->second.cancel_on_disconnect.empty()) {
            continue;
        }
        std::string &trader = own->second.cancel_on_disconnect;
        const FirmRow row = firm_row(config.configuration, firm);
        if (std::ranges::find(row.traders, trader) == row.traders.end()) {
            told.push_back(
                fmt::format("this day knows no trader {} of {}: until it ends {} cancels "
                            "on a disconnect",
                            trader, firm, row.traders.front()));
            trader = row.traders.front();
        }
    }
    return told;
}

} // namespace gateway
