// How far one firm's day has come, by what is sealed.
#ifndef GATEWAY_RECOVERY_FIRM_STATE_H
#define GATEWAY_RECOVERY_FIRM_STATE_H

#include "session/session_numbers.h"

#include <cstdint>
#include <map>
#include <string>
#include <vector>

namespace gateway {

struct FirmState {
    SessionNumbers numbers;
    std::uint32_t epoch = 0;   // how often an operator has reset the session
    std::uint32_t entries = 0; // messages of the firm that are in the log
    std::uint64_t bytes = 0;   // of their lines
    std::uint32_t given = 0;   // messages of the venue,
    std::uint32_t noted = 0;   // and how many of them session notes name
    std::uint32_t act = 0;     // the place of the last act that a session note names
};

// Throws std::runtime_error where the log has a day of a firm that the venue does not have. One
// that was only refused before the day opened may have gone since.
void check_known(const std::map<std::string, FirmState> &states,
                 const std::vector<std::string> &firms);

} // namespace gateway

#endif
