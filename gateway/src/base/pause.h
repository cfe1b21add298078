// A pause that ends early when its thread is asked to stop.
#ifndef GATEWAY_BASE_PAUSE_H
#define GATEWAY_BASE_PAUSE_H

#include <chrono>
#include <stop_token>

namespace gateway {

// Returns after so long, or at once where the stop is asked for.
void pause_for(std::chrono::microseconds time, const std::stop_token &stop);

} // namespace gateway

#endif
