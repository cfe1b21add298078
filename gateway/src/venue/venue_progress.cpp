#include "venue/venue_progress.h"

namespace gateway {

namespace {

// How long a deadline that is due is waited for at once.
constexpr std::chrono::milliseconds look_at_due(10);

} // namespace

void VenueProgress::begin(std::uint32_t last_place) {
    const std::lock_guard lock(mutex_);
    heeded_from_ = last_place;
    answered_.reset();
    deadline_.reset();
    deadlines_.notify_all();
}

void VenueProgress::put(std::uint32_t place, std::optional<Moment> deadline) {
    const std::lock_guard lock(mutex_);
    const auto before = deadline_here();
    answered_ = place;
    deadline_ = deadline;
    answers_.notify_all();
    const auto now = deadline_here();
    if (now && (!before || before->moment != now->moment)) {
        deadlines_.notify_all();
    }
}

std::optional<std::uint32_t> VenueProgress::last_place() {
    const std::lock_guard lock(mutex_);
    return answered_;
}

bool VenueProgress::wait(std::uint32_t place, const std::stop_token &stop) {
    std::unique_lock lock(mutex_);
    return answers_.wait(lock, stop, [&] { return has_answered(place); });
}

bool VenueProgress::wait(std::uint32_t place, std::chrono::milliseconds longest,
                         const std::stop_token &stop) {
    std::unique_lock lock(mutex_);
    return answers_.wait_for(lock, stop, longest, [&] { return has_answered(place); });
}

std::optional<VenueProgress::Deadline> VenueProgress::deadline_here() const {
    if (!deadline_ || !has_answered(heeded_from_)) {
        return std::nullopt;
    }
    return Deadline{*deadline_, *answered_};
}

std::optional<VenueProgress::Deadline> VenueProgress::deadline() {
    const std::lock_guard lock(mutex_);
    return deadline_here();
}

std::optional<VenueProgress::Deadline>
VenueProgress::wait_for_deadline(const std::stop_token &stop) {
    std::unique_lock lock(mutex_);
    deadlines_.wait(lock, stop, [&] { return deadline_here().has_value(); });
    return stop.stop_requested() ? std::nullopt : deadline_here();
}

void VenueProgress::wait_for_other(Moment known, std::chrono::milliseconds longest,
                                   const std::stop_token &stop) {
    std::unique_lock lock(mutex_);
    deadlines_.wait_for(lock, stop, longest, [&] {
        const auto now = deadline_here();
        return now && now->moment != known;
    });
}

std::optional<VenueProgress::Deadline> VenueProgress::due(DayClock &clock) {
    const auto next = deadline();
    return next && clock.until(next->moment).count() <= 0 ? next : std::nullopt;
}

bool VenueProgress::wait_until_none_is_due(DayClock &clock, std::chrono::milliseconds longest,
                                           const std::stop_token &stop) {
    const auto latest = std::chrono::steady_clock::now() + longest;
    for (auto next = due(clock); next; next = due(clock)) {
        if (stop.stop_requested() || std::chrono::steady_clock::now() >= latest) {
            return false;
        }
        wait_for_other(next->moment, look_at_due, stop);
    }
    return true;
}

} // namespace gateway
