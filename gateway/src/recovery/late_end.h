// Signs the end of a day whose gateway was killed before it could.
#ifndef GATEWAY_RECOVERY_LATE_END_H
#define GATEWAY_RECOVERY_LATE_END_H

#include "config/config.h"

#include <memory>
#include <string_view>

#include <spdlog/logger.h>

namespace gateway {

// Of the last day before this one (eight digits) that has a checkpoint outside of its database:
// where that does not say that the day has ended, its log is held against its seals and that file,
// and its end is signed, in a term of its own. Does nothing where another gateway writes that log.
// Throws std::runtime_error where the log is not as it was left; it is not signed then.
void sign_late_end(const Config &config, std::string_view before,
                   const std::shared_ptr<spdlog::logger> &events);

} // namespace gateway

#endif
