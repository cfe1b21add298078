#include "recovery/firm_state.h"

#include <algorithm>
#include <stdexcept>

#include <fmt/format.h>

namespace gateway {

namespace {

bool has_begun(const FirmState &state) {
    const SessionNumbers &numbers = state.numbers;
    return state.entries > 0 || state.given > 0 || numbers.last_kept > 0 || numbers.last_logon > 0;
}

} // namespace

void check_known(const std::map<std::string, FirmState> &states,
                 const std::vector<std::string> &firms) {
    for (const auto &[name, state] : states) {
        if (has_begun(state) && std::ranges::count(firms, name) == 0) {
            throw std::runtime_error(
                fmt::format("the log has {}, and the venue has no such firm", name));
        }
    }
}

} // namespace gateway
