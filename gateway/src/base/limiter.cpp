#include "base/limiter.h"

#include <limits>

namespace gateway {

namespace {

constexpr std::size_t most = 10;
constexpr std::chrono::seconds period(60);
constexpr std::size_t most_kinds = 64;

} // namespace

Limiter::Answer Limiter::ask(const std::string &kind) {
    const Clock::time_point now = now_();
    const std::lock_guard<std::mutex> lock(mutex_);
    Kind &found = kind_of(kind);
    if (!has_room(found, now)) {
        if (found.left_out < std::numeric_limits<std::uint32_t>::max()) {
            ++found.left_out;
        }
        return {};
    }
    note(found, now);
    Answer answer;
    answer.told = true;
    std::swap(answer.left_out, found.left_out);
    return answer;
}

std::vector<Limiter::Rest> Limiter::rest() {
    const Clock::time_point now = now_();
    const std::lock_guard<std::mutex> lock(mutex_);
    std::vector<Rest> found;
    for (auto &named : kinds_) {
        Kind &kind = named.second;
        if (kind.left_out > 0 && has_room(kind, now)) {
            found.push_back({named.first, kind.left_out});
            kind.left_out = 0;
            note(kind, now);
        }
    }
    return found;
}

std::vector<Limiter::Rest> Limiter::last_rest() {
    const std::lock_guard<std::mutex> lock(mutex_);
    std::vector<Rest> found;
    for (auto &named : kinds_) {
        if (named.second.left_out > 0) {
            found.push_back({named.first, named.second.left_out});
            named.second.left_out = 0;
        }
    }
    return found;
}

Limiter::Kind &Limiter::kind_of(const std::string &name) {
    const auto found = kinds_.find(name);
    if (found != kinds_.end()) {
        return found->second;
    }
    return kinds_[kinds_.size() < most_kinds - 1 ? name : "others"];
}

bool Limiter::has_room(const Kind &kind, Clock::time_point now) {
    return kind.told.size() < most || now - kind.told.front() >= period;
}

void Limiter::note(Kind &kind, Clock::time_point now) {
    kind.told.push_back(now);
    if (kind.told.size() > most) {
        kind.told.pop_front();
    }
}

} // namespace gateway
