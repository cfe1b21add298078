// Tells the operator when the venue, or the log, stops answering.
#ifndef GATEWAY_HEALTH_SILENCE_H
#define GATEWAY_HEALTH_SILENCE_H

#include <chrono>
#include <cstdint>
#include <memory>
#include <optional>
#include <string>

#include <spdlog/logger.h>

namespace gateway {

// Tells the operator once where a venue has entries to answer and has answered none for some
// seconds, and once when it goes on. One thread.
class Silence {
  public:
    using Clock = std::chrono::steady_clock;

    // of_venue is what events say of which venue it is.
    Silence(std::shared_ptr<spdlog::logger> events, std::string of_venue)
        : events_(std::move(events)), of_venue_(std::move(of_venue)) {}

    // To be called each second, with the last entry that is answered (0 once the configuration was
    // read, nothing before that) and the last one of the log. How long it has been silent.
    Clock::duration look(std::optional<std::uint32_t> answered, std::uint32_t last,
                         Clock::time_point now = Clock::now());

  private:
    std::shared_ptr<spdlog::logger> events_;
    const std::string of_venue_;
    std::optional<std::uint32_t> answered_;
    Clock::time_point since_ = Clock::now();
    bool told_ = false;
};

// The same of a log whose database keeps a commit waiting. One thread.
class Stall {
  public:
    Stall(std::shared_ptr<spdlog::logger> events, std::string of_venue)
        : events_(std::move(events)), of_venue_(std::move(of_venue)) {}

    // To be called each second, with the moment at which the commit of now began, if there is one.
    void look(std::optional<Silence::Clock::time_point> since,
              Silence::Clock::time_point now = Silence::Clock::now());

  private:
    std::shared_ptr<spdlog::logger> events_;
    const std::string of_venue_;
    bool told_ = false;
};

} // namespace gateway

#endif
