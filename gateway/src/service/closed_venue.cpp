#include "service/closed_venue.h"

#include "common/moment.h"

#include <chrono>
#include <utility>

namespace gateway {

ClosedVenue::ClosedVenue(std::vector<Config> configs, const TradingDay &day, ListeningPort port,
                         Metrics &metrics, std::shared_ptr<spdlog::logger> events)
    : configs_(std::move(configs)), date_(today()), told_(metrics, std::move(events)),
      engine_(configs_.front().engine, {}, told_) {
    const auto now = std::chrono::floor<std::chrono::seconds>(std::chrono::system_clock::now());
    for (const Config &config : configs_) {
        const bool is_safe = !has_ended_on_its_date(config.days, day, now);
        firms_.push_back(std::make_unique<ClosedFirms>(config, day.opens, is_safe, metrics, told_));
    }
    engine_.add(starts());
    engine_.listen(std::move(port));
}

ClosedVenue::~ClosedVenue() {
    engine_.stop("");
    told_.tell_last_rest();
}

std::vector<SessionStart> ClosedVenue::starts() {
    std::vector<SessionStart> starts;
    for (std::size_t at = 0; at < configs_.size(); ++at) {
        for (const std::string &name : configs_[at].firms.names) {
            SessionStart start;
            start.firm = name;
            start.venue = configs_[at].venue;
            start.date = date_;
            start.host = firms_[at].get();
            start.is_open = false;
            starts.push_back(std::move(start));
        }
    }
    return starts;
}

} // namespace gateway
