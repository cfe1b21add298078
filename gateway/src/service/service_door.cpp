// Refuses each Logon at the port before a day opens.
#include "common/moment.h"
#include "service/service.h"
#include "session/check_settings.h"

#include <memory>
#include <utility>

namespace gateway {

// By what is in force, and with the date of now.
void Service::refuse_logons(const TradingDay &day) {
    const bool is_same = closed_ && closed_of_ == next_.changes() && closed_->date() == today();
    if (is_same && !is_to_renew_.exchange(false)) {
        closed_->look();
        return;
    }
    try {
        open_door(day);
        door_fault_.clear();
    } catch (const std::exception &fault) {
        if (std::exchange(door_fault_, fault.what()) != fault.what()) {
            events_->warn("nobody is told when the day opens cause=\"{}\"", fault.what());
        }
    }
}

void Service::open_door(const TradingDay &day) {
    is_to_renew_ = false;
    closed_of_ = next_.changes();
    std::vector<Config> configs = next_.in_force(day.date);
    // Where a certificate is at fault, the one before stays.
    check_settings(configs.front().engine);
    ListeningPort port = closed_door();
    closed_ =
        std::make_unique<ClosedVenue>(std::move(configs), day, std::move(port), metrics_, events_);
}

// Whoever connects from now on waits in the port.
ListeningPort Service::closed_door() {
    ListeningPort port = closed_ ? closed_->give_port() : ListeningPort();
    closed_.reset();
    return port;
}

} // namespace gateway
