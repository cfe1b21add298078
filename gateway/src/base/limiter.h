// Limits how often the gateway tells of what anybody can cause. Plain C++: `session` may use it
// too.
#ifndef GATEWAY_BASE_LIMITER_H
#define GATEWAY_BASE_LIMITER_H

#include <chrono>
#include <cstdint>
#include <deque>
#include <functional>
#include <map>
#include <mutex>
#include <string>
#include <utility>
#include <vector>

namespace gateway {

// Of each kind ten are told in any minute, and the rest are counted. Any thread may ask.
class Limiter {
  public:
    using Clock = std::chrono::steady_clock;
    using Now = std::function<Clock::time_point()>;

    explicit Limiter(Now now = &Clock::now) : now_(std::move(now)) {}

    struct Answer {
        bool told = false;          // this one may be told
        std::uint32_t left_out = 0; // before it, since the last one of its kind that was told
    };
    // One of a kind has come. A kind is one of a few words that the gateway has: of more than there
    // is room for, those behind are of one kind together.
    Answer ask(const std::string &kind);

    struct Rest {
        std::string kind;
        std::uint32_t left_out = 0;
    };
    // The kinds of which some were left out and another may be told by now: that is their count,
    // and is told in its place. To be called each second.
    std::vector<Rest> rest();
    // All that were left out and not told yet, at the end.
    std::vector<Rest> last_rest();

  private:
    struct Kind {
        std::deque<Clock::time_point> told; // the last ten at most
        std::uint32_t left_out = 0;
    };

    // The lock is held.
    Kind &kind_of(const std::string &name);
    static bool has_room(const Kind &kind, Clock::time_point now);
    static void note(Kind &kind, Clock::time_point now);

    const Now now_;
    std::mutex mutex_;
    std::map<std::string, Kind> kinds_;
};

} // namespace gateway

#endif
