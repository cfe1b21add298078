// Accepts the loss if the end of a log is gone, by an operator's order.
#ifndef GATEWAY_RECOVERY_ACCEPT_LOSS_H
#define GATEWAY_RECOVERY_ACCEPT_LOSS_H

#include "config/config.h"
#include "log/notes.h"

#include <memory>
#include <string>
#include <vector>

#include <spdlog/logger.h>

namespace gateway {

// Takes a venue's log as it is: the next start goes on behind its last entry, whatever the
// checkpoint that was kept says. The acts are committed first, together, as the log's new last
// entries: the acceptance, and what has to hold before a firm can log on. A log that is gone is
// begun with them. Returns what was given up. Throws std::runtime_error where the log can't be read
// or written, another gateway has it, or its seals are not right: what no gateway has sealed is
// never accepted.
std::string accept_loss(const Config &config, const std::vector<Act> &acts,
                        const std::shared_ptr<spdlog::logger> &events);

} // namespace gateway

#endif
