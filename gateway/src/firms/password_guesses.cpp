#include "firms/password_guesses.h"

#include <algorithm>

namespace gateway {

namespace {

constexpr auto first_pause = std::chrono::milliseconds(10);
constexpr std::chrono::milliseconds longest_pause(250);
constexpr std::size_t most_doublings = 5;
constexpr auto memory = std::chrono::minutes(1);

// So many addresses are remembered: of more, none that has guessed less than others for long.
constexpr std::size_t most_addresses = 4096;

} // namespace

std::size_t PasswordGuesses::wrong(const std::string &address) {
    const Clock::time_point now = now_();
    const std::lock_guard lock(mutex_);
    if (wrong_.size() >= most_addresses) {
        forget(now);
    }
    Wrong &own = wrong_[address];
    own.count = now - own.last > memory ? 1 : own.count + 1;
    own.last = now;
    return own.count;
}

std::size_t PasswordGuesses::wrong_of(const std::string &address) {
    const std::lock_guard lock(mutex_);
    const auto found = wrong_.find(address);
    return found == wrong_.end() ? 0 : found->second.count;
}

PasswordGuesses::Clock::time_point PasswordGuesses::judged_from(const std::string &address) {
    const std::lock_guard lock(mutex_);
    const auto found = wrong_.find(address);
    if (found == wrong_.end()) {
        return {};
    }
    const std::size_t doublings = std::min(found->second.count - 1, most_doublings);
    return found->second.last + std::min(first_pause * (1 << doublings), longest_pause);
}

void PasswordGuesses::forget(Clock::time_point now) {
    std::erase_if(wrong_, [now](const auto &each) { return now - each.second.last > memory; });
    if (wrong_.size() >= most_addresses) {
        wrong_.clear();
    }
}

} // namespace gateway
