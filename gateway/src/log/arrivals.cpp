#include "log/arrivals.h"

#include <utility>

namespace gateway {

void Arrivals::put(Arrival arrival) {
    auto place = waiting_.end();
    const auto first = waiting_.begin() + static_cast<std::ptrdiff_t>(fence_);
    while (place != first && std::prev(place)->at > arrival.at) {
        --place;
    }
    const std::size_t bytes = arrival.verb.size() + arrival.rest.size();
    waiting_.insert(place, std::move(arrival));
    bytes_ += bytes;
}

std::vector<Arrival> Arrivals::take() {
    fence_ = 0;
    bytes_ = 0;
    return std::exchange(waiting_, {});
}

} // namespace gateway
