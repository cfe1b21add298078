// Which trader's name the gateway's cancels of a dealer's quotes have on a day that goes on.
#ifndef GATEWAY_CONFIG_CANCEL_TRADERS_H
#define GATEWAY_CONFIG_CANCEL_TRADERS_H

#include "config/config.h"

#include <string>
#include <vector>

namespace gateway {

// The credentials are held against the venue's file, which is the next day's: where they name a
// trader whom the configuration of this day has not, the venue would refuse his cancel. Then the
// dealer's first trader of this day cancels. Returns a line for each such dealer.
std::vector<std::string> take_cancel_traders_of_day(Config &config);

} // namespace gateway

#endif
