// Writes the part of the venue's configuration that a firm may see.
#ifndef GATEWAY_CONFIG_CONFIGURATION_FOR_FIRM_H
#define GATEWAY_CONFIG_CONFIGURATION_FOR_FIRM_H

#include <string>

namespace gateway {

// As a file that a desk reads: the bonds, the dealers' names, and the firm's own row with its
// limits; nothing of what another firm may do, and of no investor but the firm itself that there is
// one. `configuration` is the venue's, and right. Throws std::runtime_error where it has no such
// firm.
std::string configuration_for_firm(const std::string &configuration, const std::string &firm);

} // namespace gateway

#endif
