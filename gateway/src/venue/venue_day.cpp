#include "venue/venue_day.h"

#include "config/log_location.h"

#include <stdexcept>
#include <utility>

#include <fmt/format.h>

namespace gateway {

namespace {

// Throws where it is none of today.
std::unique_ptr<Database> open_database(const Config &config, DayClock &clock) {
    if (clock.day() != DayClock::Day::goes_on) {
        throw std::runtime_error(fmt::format(
            "the venue's configuration is of {}, and today is {} in UTC", clock.date(), today()));
    }
    return open_database(config);
}

} // namespace

VenueDay::VenueDay(const Config &given, Metrics &counted, Status &state,
                   std::shared_ptr<spdlog::logger> lines, OperatorEvents &listener,
                   std::optional<TradingDay> of)
    : config(given), hours(std::move(of)), metrics(counted), status(state),
      events(std::move(lines)), told(listener), clock(config.firms.date),
      guard(sealer_of(config), config.checkpoints, events,
            [this](std::string_view lines) { session_notes.put(lines); }),
      database(open_database(config, clock)), reserve(config.disk, config.reserve),
      spool(config.spool, config.firms.names), session_notes(config.spool) {}

VenueDay::~VenueDay() {
    if (has_term) {
        metrics.speaks_no_more();
    }
}

void VenueDay::tell_if_clock_was_set() {
    kernel_clock_ = read_kernel_clock();
    metrics.clock_is(kernel_clock_.is_synchronised, kernel_clock_.greatest_error);
    const auto step = clock_watch_.look();
    if (!step) {
        return;
    }
    metrics.clock_set();
    const double seconds = std::chrono::duration<double>(*step).count();
    events->error("clock was set{} by={:.3f} s", of_venue(), seconds);
    steps_.put(*step);
    // Steps that no operator has accepted add up.
    clock_set_meanwhile += step->count();
    const std::chrono::microseconds set_by = clock_was_set_by();
    if (std::chrono::abs(set_by) > longest_step) {
        clock_is_right = false;
        events->error("no request and no quote is taken{} until=\"an operator accepts the clock\" "
                      "cause=\"the clock was set by {:.3f} s\"",
                      of_venue(), std::chrono::duration<double>(set_by).count());
    }
}

std::chrono::microseconds VenueDay::clock_was_set_by() const {
    return std::chrono::microseconds(clock_set_by + clock_set_meanwhile);
}

// What was measured meanwhile stands behind it in the log.
void VenueDay::take_clock_accepted() {
    clock_set_by = 0;
    clock_is_right = true;
    if (std::chrono::abs(clock_was_set_by()) > longest_step) {
        clock_is_right = false;
    }
}

// Whoever asks between the two lines finds too little, and what follows them finds all.
void VenueDay::take_step(std::chrono::microseconds step, bool was_measured_here) {
    if (was_measured_here) {
        clock_set_meanwhile -= step.count();
    }
    clock_set_by += step.count();
    if (std::chrono::abs(clock_was_set_by()) > longest_step) {
        clock_is_right = false;
    }
}

void VenueDay::look_at_disk() {
    const bool is_reached = reserve.is_reached();
    const auto free = reserve.free_bytes();
    if (free) {
        metrics.log_disk(config.venue, *free, reserve.reserve(), is_reached);
    }
    if (is_reached == std::exchange(told_of_disk_, is_reached)) {
        return;
    }
    if (is_reached) {
        events->error(
            "no request and no quote is taken{} until=\"there is room on the log's disk\" "
            "free={} reserve={}",
            of_venue(), free.value_or(0), reserve.reserve());
    } else {
        events->warn("there is room on the log's disk again{} free={} reserve={}", of_venue(),
                     free.value_or(0), reserve.reserve());
    }
}

std::vector<std::chrono::microseconds> VenueDay::take_steps() {
    return steps_.take();
}

void VenueDay::look_at_clock() {
    status.liveness().put("the gateway" + of_venue());
    tell_if_clock_was_set();
    switch (clock.day()) {
    case DayClock::Day::goes_on:
        break;
    case DayClock::Day::over:
        status.ask_to_stop("the day is over");
        break;
    case DayClock::Day::set:
        status.fail(fmt::format("the clock was set from {} to {}", clock.date(), today()));
        break;
    }
}

std::string VenueDay::of_venue() const {
    return config.venue.empty() ? "" : fmt::format(" venue={}", config.venue);
}

} // namespace gateway
