#include "day/sweeper.h"

#include <algorithm>
#include <chrono>
#include <optional>

namespace gateway {

namespace {

using namespace std::chrono_literals;

// By how much a sweep may be late before messages are held for it.
constexpr auto patience = 100ms;

// How long it sleeps at most before it looks at the clock again: that may have been set forward, or
// the machine have slept.
constexpr auto longest_sleep = 1000ms;

// How long a mark is waited for before the next look.
constexpr auto look = 10ms;

// How long messages are held at most: a firm whose session ends may wait for them, and the thread
// that reads the venue for that firm. After it they go on, and are held again.
constexpr auto longest_hold = 500ms;

} // namespace

Sweeper::Sweeper(VenueProgress &progress, Log &log, DayClock &clock)
    : progress_(progress), log_(log), clock_(clock) {}

Sweeper::~Sweeper() {
    stop();
}

void Sweeper::start() {
    thread_ = std::jthread([this](const std::stop_token &stop) { run(stop); });
}

void Sweeper::stop() {
    thread_.request_stop();
    if (thread_.joinable()) {
        thread_.join();
    }
}

void Sweeper::run(const std::stop_token &stop) {
    try {
        while (const auto next = progress_.wait_for_deadline(stop)) {
            const auto left = clock_.until(next->moment);
            if (left > 0ms) {
                progress_.wait_for_other(next->moment, std::min(left, longest_sleep), stop);
            } else {
                sweep(*next, stop);
            }
        }
    } catch (const std::exception &) {
        // The log takes nothing any more, and has told it.
    }
}

void Sweeper::sweep(VenueProgress::Deadline due, const std::stop_token &stop) {
    const Moment moment = due.moment;
    const auto latest = std::chrono::steady_clock::now() + patience;
    while (!sweep_behind(due, stop)) {
        progress_.wait_for_other(moment, look, stop);
        const auto now_due = progress_.deadline();
        if (stop.stop_requested() || !now_due || now_due->moment != moment) {
            return;
        }
        due = *now_due;
        if (std::chrono::steady_clock::now() >= latest) {
            sweep_held(moment, stop);
            return;
        }
    }
}

// Its answer is waited for after the hold: what the venue gives for it may have to wait for a firm
// that waits for the log.
void Sweeper::sweep_held(Moment moment, const std::stop_token &stop) {
    std::optional<std::uint32_t> swept;
    {
        const Log::Hold hold(log_, moment);
        progress_.wait(log_.last_place(), longest_hold, stop);
        if (const auto due = progress_.due(clock_)) {
            swept = log_.append_clock_behind(due->place, due->moment);
        }
    }
    if (swept) {
        progress_.wait(*swept, stop);
    }
}

bool Sweeper::sweep_behind(const VenueProgress::Deadline &due, const std::stop_token &stop) {
    const auto swept = log_.append_clock_behind(due.place, due.moment);
    return swept && (progress_.wait(*swept, stop), true);
}

} // namespace gateway
