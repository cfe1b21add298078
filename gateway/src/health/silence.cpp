#include "health/silence.h"

namespace gateway {

namespace {

// A venue and a log answer within milliseconds; a venue that is fed again goes on meanwhile.
constexpr auto longest = std::chrono::seconds(5);

} // namespace

Silence::Clock::duration Silence::look(std::optional<std::uint32_t> answered, std::uint32_t last,
                                       Clock::time_point now) {
    if (answered != answered_ || answered == last) {
        if (told_ && answered) {
            events_->info("venue answers again{} place={}", of_venue_, *answered);
        }
        answered_ = answered;
        since_ = now;
        told_ = false;
    } else if (!told_ && now - since_ >= longest) {
        told_ = true;
        const std::uint32_t next = answered ? *answered + 1 : 0;
        events_->warn("venue does not answer{} place={} entries={}", of_venue_, next,
                      last + 1 - next);
    }
    return now - since_;
}

void Stall::look(std::optional<Silence::Clock::time_point> since, Silence::Clock::time_point now) {
    const bool waits = since && now - *since >= longest;
    if (waits && !told_) {
        events_->warn("log does not answer{}", of_venue_);
    } else if (told_ && !waits) {
        events_->info("log answers again{}", of_venue_);
    }
    told_ = waits;
}

} // namespace gateway
