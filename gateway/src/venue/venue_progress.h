// How many entries the venue's process has answered, and its next deadline.
#ifndef GATEWAY_VENUE_VENUE_PROGRESS_H
#define GATEWAY_VENUE_VENUE_PROGRESS_H

#include "common/moment.h"

#include <chrono>
#include <condition_variable>
#include <cstdint>
#include <mutex>
#include <optional>
#include <stop_token>

namespace gateway {

// The last place that the venue's process has answered, and the earliest deadline that it told with
// it. Any thread may call.
class VenueProgress {
  public:
    struct Deadline {
        Moment moment;
        std::uint32_t place = 0; // the last one that was answered when it was told
    };

    // A process begins. Its deadlines are old ones until it has answered this place.
    void begin(std::uint32_t last_place);
    void put(std::uint32_t place, std::optional<Moment> deadline);

    // The last one that it has answered, 0 where it has read its configuration and nothing before.
    std::optional<std::uint32_t> last_place();
    // Whether the place is answered; waits for it until the stop is asked for, or so long.
    bool wait(std::uint32_t place, const std::stop_token &stop);
    bool wait(std::uint32_t place, std::chrono::milliseconds longest, const std::stop_token &stop);

    // The deadline of now, if there is one that is no old one.
    std::optional<Deadline> deadline();
    // Waits for one; nothing where the stop was asked for.
    std::optional<Deadline> wait_for_deadline(const std::stop_token &stop);
    // Waits until the deadline of now is another moment, or so long.
    void wait_for_other(Moment known, std::chrono::milliseconds longest,
                        const std::stop_token &stop);
    // The deadline of now, if it has come by this clock.
    std::optional<Deadline> due(DayClock &clock);
    // Whether none is due; waits for that until the stop is asked for, or so long.
    bool wait_until_none_is_due(DayClock &clock, std::chrono::milliseconds longest,
                                const std::stop_token &stop);

  private:
    // The lock is held.
    bool has_answered(std::uint32_t place) const { return answered_ && *answered_ >= place; }
    std::optional<Deadline> deadline_here() const;

    std::mutex mutex_;
    std::condition_variable_any answers_;   // for whoever waits for a place
    std::condition_variable_any deadlines_; // for whoever waits for another deadline
    std::uint32_t heeded_from_ = 0;
    std::optional<std::uint32_t> answered_; // 0 where it has read its configuration
    std::optional<Moment> deadline_;
};

} // namespace gateway

#endif
