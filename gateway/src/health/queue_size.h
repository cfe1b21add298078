// How much waits at one place.
#ifndef GATEWAY_HEALTH_QUEUE_SIZE_H
#define GATEWAY_HEALTH_QUEUE_SIZE_H

#include <string>

namespace gateway {

struct QueueSize {
    std::string what; // what waits, and for whom
    double size = 0;
};

} // namespace gateway

#endif
