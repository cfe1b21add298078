// How much a firm may send in a second, and at once.
#ifndef GATEWAY_CONFIG_RATE_LIMITS_H
#define GATEWAY_CONFIG_RATE_LIMITS_H

#include <cstddef>

namespace gateway {

// As they are configured, for every firm the same.
struct RateLimits {
    std::size_t messages_per_second = 2000;
    std::size_t messages_burst = 10000;
    std::size_t bytes_per_second = 1048576;
    std::size_t bytes_burst = 8388608;
    std::size_t resends_per_second = 5000;
    std::size_t resends_burst = 20000;
};

} // namespace gateway

#endif
