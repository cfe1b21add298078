// Reads from the log what happened to connections.
#include "log/database.h"

#include <algorithm>
#include <map>
#include <stdexcept>

#include <fmt/format.h>

namespace gateway {

namespace {

// Rows that are read at once.
constexpr std::uint32_t chunk = 1024;

// Row by row, in their order.
class Reading {
  public:
    void take(const ConnectionEvent &event) {
        if (event.place != place_ + 1 || event.before != hash_ || event.hash != hash_of(event)) {
            throw std::runtime_error(fmt::format(
                "the log was changed: row {} of the table connection does not follow on row {}",
                event.place, place_));
        }
        place_ = event.place;
        hash_ = event.hash;
        greatest_ = std::max(greatest_, event.number.value_or(0));
        if (event.number && event.event == connection_events::logon) {
            open_[*event.number] = event;
        } else if (event.number && event.event == connection_events::end) {
            open_.erase(*event.number);
        }
        last_ = event;
    }
    std::uint32_t place() const { return place_; }
    ConnectionState state() const {
        ConnectionState state{last_, greatest_, {}};
        for (const auto &[number, logon] : open_) {
            state.open.push_back(logon);
        }
        return state;
    }

  private:
    std::uint32_t place_ = 0;
    Digest hash_{};
    std::uint32_t greatest_ = 0;
    std::map<std::uint32_t, ConnectionEvent> open_; // by their numbers, which rise
    std::optional<ConnectionEvent> last_;
};

} // namespace

ConnectionState connections_in(LogReader &log) {
    Reading reading;
    std::vector<ConnectionEvent> some;
    do {
        some = log.connection_events(reading.place() + 1, chunk);
        for (const ConnectionEvent &event : some) {
            reading.take(event);
        }
    } while (some.size() == chunk);
    return reading.state();
}

} // namespace gateway
