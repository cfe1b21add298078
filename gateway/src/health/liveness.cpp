#include "health/liveness.h"

#include <algorithm>

namespace gateway {

void Liveness::put(const std::string &part, Duration silent) {
    const Clock::time_point worked = Clock::now() - silent;
    const std::lock_guard lock(mutex_);
    last_[part] = worked;
}

std::optional<Liveness::Silent> Liveness::longest() const {
    const std::lock_guard lock(mutex_);
    const auto oldest = std::min_element(last_.begin(), last_.end(), [](auto &one, auto &other) {
        return one.second < other.second;
    });
    if (oldest == last_.end()) {
        return std::nullopt;
    }
    return Silent{oldest->first, Clock::now() - oldest->second};
}

} // namespace gateway
