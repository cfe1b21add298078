// Asks the venue's program whether it takes a configuration, before a day begins with it.
#ifndef GATEWAY_VENUE_VENUE_TRIAL_H
#define GATEWAY_VENUE_VENUE_TRIAL_H

#include "config/config.h"

namespace gateway {

// Runs the venue's program with its configuration and no message, as confined as it is on a day.
// Whether it knows the flag for notes. Throws std::runtime_error with what the program says where
// it does not take the configuration, and where it can't be run or does not end in ten seconds.
bool try_configuration(const Config &config);

} // namespace gateway

#endif
