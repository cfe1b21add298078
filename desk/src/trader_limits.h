// Keeps the limits of each trader, as the firm's admin sets them while the desk runs. A trader for
// whom the admin has set none has those of the configuration.
#ifndef DESK_TRADER_LIMITS_H
#define DESK_TRADER_LIMITS_H

#include "config.h"

#include <functional>
#include <map>
#include <optional>
#include <string>

namespace desk {

class TraderLimits {
  public:
    // Throws std::runtime_error where there is a file that can't be read: nobody trades without
    // the limits that were set.
    explicit TraderLimits(std::string path);

    struct Limits {
        std::optional<Quantity> quantity; // of one request or quote
        std::optional<Quantity> exposure; // of all live quotes
    };
    void set(const std::string &login, const Limits &limits) { limits_[login] = limits; }
    // The trader with the limits that hold now.
    Trader applied(const Trader &trader) const;

    // What keeps all of it over a restart, as of now: it waits for the disk, on any thread, and
    // says in words why not.
    std::function<std::string()> writer() const;

  private:
    const std::string path_;
    std::map<std::string, Limits> limits_; // by login
};

} // namespace desk

#endif
