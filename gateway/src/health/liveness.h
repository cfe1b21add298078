// Notes when each part that does the work last showed that it does.
#ifndef GATEWAY_HEALTH_LIVENESS_H
#define GATEWAY_HEALTH_LIVENESS_H

#include <chrono>
#include <map>
#include <mutex>
#include <optional>
#include <string>

namespace gateway {

// Each part says again and again that it works. One that says so no more is silent from then on,
// whatever has stopped it. Any thread may call all of it.
class Liveness {
  public:
    using Duration = std::chrono::steady_clock::duration;

    // This part works, or has been silent for so long already.
    void put(const std::string &part, Duration silent = {});

    struct Silent {
        std::string part;
        Duration time;
    };
    // The part that has been silent longest; nothing where none has said anything yet.
    std::optional<Silent> longest() const;

  private:
    using Clock = std::chrono::steady_clock;

    mutable std::mutex mutex_;
    std::map<std::string, Clock::time_point> last_; // when each part last worked
};

} // namespace gateway

#endif
