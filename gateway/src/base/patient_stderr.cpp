#include "base/patient_stderr.h"

#include <algorithm>
#include <cerrno>
#include <chrono>

#include <fmt/format.h>
#include <poll.h>
#include <unistd.h>

namespace gateway {

namespace {

using Clock = std::chrono::steady_clock;

constexpr auto longest = std::chrono::seconds(1);

// Where poll() finds room in a pipe or a socket, there is room for so much.
constexpr std::size_t piece = 4096;

bool has_room(Clock::time_point until) {
    pollfd room{STDERR_FILENO, POLLOUT, 0};
    for (;;) {
        const auto left = std::chrono::ceil<std::chrono::milliseconds>(until - Clock::now());
        const int found = ::poll(&room, 1, left.count() > 0 ? static_cast<int>(left.count()) : 0);
        if (found >= 0 || errno != EINTR) {
            return found > 0;
        }
    }
}

} // namespace

void PatientStderr::sink_it_(const spdlog::details::log_msg &event) {
    spdlog::memory_buf_t line;
    formatter_->format(event, line);
    const bool are_told =
        left_out_ == 0 ||
        put(fmt::format("{} events were left out: standard error took none\n", left_out_));
    if (are_told) {
        left_out_ = 0;
    }
    if (!are_told || !put({line.data(), line.size()})) {
        ++left_out_;
    }
}

// It waits once, and not again before there is room.
bool PatientStderr::put(std::string_view text) {
    const auto until = Clock::now() + (left_out_ == 0 ? longest : Clock::duration::zero());
    if (is_cut_ && has_room(until) && ::write(STDERR_FILENO, "\n", 1) == 1) {
        is_cut_ = false;
    }
    for (bool has_begun = false; !text.empty(); has_begun = true) {
        if (!has_room(until)) {
            is_cut_ = is_cut_ || has_begun;
            return false;
        }
        const ssize_t count = ::write(STDERR_FILENO, text.data(), std::min(text.size(), piece));
        if (count < 0 && errno != EINTR) {
            return true; // nobody reads it, or a file has no room: there is nothing to wait for
        }
        text.remove_prefix(count < 0 ? 0 : static_cast<std::size_t>(count));
    }
    return true;
}

} // namespace gateway
