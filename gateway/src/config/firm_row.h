// A firm's row in the venue's configuration.
#ifndef GATEWAY_CONFIG_FIRM_ROW_H
#define GATEWAY_CONFIG_FIRM_ROW_H

#include <string>
#include <vector>

namespace gateway {

struct FirmRow {
    bool is_dealer = false;           // else an investor
    std::vector<std::string> traders; // one at least
};

// `configuration` is the venue's, and right. Throws std::runtime_error where it has no such firm.
FirmRow firm_row(const std::string &configuration, const std::string &firm);

// Whether the configuration has a bond of this id (48).
bool has_bond(const std::string &configuration, const std::string &bond);

} // namespace gateway

#endif
