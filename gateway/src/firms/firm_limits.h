// The limits of one firm: those of the configuration, or those that an operator has set instead.
#ifndef GATEWAY_FIRMS_FIRM_LIMITS_H
#define GATEWAY_FIRMS_FIRM_LIMITS_H

#include "firms/day_bytes.h"
#include "firms/firm_rate.h"

#include <array>
#include <cstdint>
#include <map>
#include <mutex>
#include <optional>
#include <string>
#include <string_view>

namespace gateway {

// A limit that an operator may set for a firm, by its name in [limits], and from what to what.
struct LimitKey {
    std::string_view name;
    std::uint64_t least;
    std::uint64_t most;
    std::size_t RateLimits::*rate; // null for that of a day's bytes
};

constexpr std::array<LimitKey, 7> limit_keys = {{
    {"day_bytes", 65536, std::uint64_t{1} << 40, nullptr},
    {"messages_per_second", 500, 1073741824, &RateLimits::messages_per_second},
    {"messages_burst", 500, 1073741824, &RateLimits::messages_burst},
    {"bytes_per_second", 65536, 1073741824, &RateLimits::bytes_per_second},
    {"bytes_burst", 65536, 1073741824, &RateLimits::bytes_burst},
    {"resends_per_second", 500, 1073741824, &RateLimits::resends_per_second},
    {"resends_burst", 500, 1073741824, &RateLimits::resends_burst},
}};

// Null where there is none of the name.
inline const LimitKey *limit_key(std::string_view name) {
    for (const LimitKey &key : limit_keys) {
        if (key.name == name) {
            return &key;
        }
    }
    return nullptr;
}

// Any thread may call it. It waits for nothing but itself: the thread that commits the log sets
// limits, and whoever waits for the log may ask.
class FirmLimits {
  public:
    // used is of the bytes of a day.
    FirmLimits(const RateLimits &configured, std::uint64_t used, std::uint64_t most)
        : rate(configured), bytes(used, most), configured_(configured), configured_bytes_(most) {}

    FirmRate rate;
    DayBytes bytes; // of its lines in the log

    // By the configuration, as it is read again.
    void configure_bytes(std::uint64_t most) {
        const std::lock_guard lock(mutex_);
        configured_bytes_ = most;
        apply();
    }
    // By an operator; nothing for what is configured. Does nothing for a name that is none.
    void set(const std::string &key, std::optional<std::uint64_t> value) {
        const std::lock_guard lock(mutex_);
        if (value) {
            set_[key] = *value;
        } else {
            set_.erase(key);
        }
        apply();
    }
    // All, by their names.
    std::map<std::string, std::uint64_t> all() {
        const std::lock_guard lock(mutex_);
        std::map<std::string, std::uint64_t> found;
        const RateLimits rates = rates_now();
        for (const LimitKey &key : limit_keys) {
            found[std::string(key.name)] = key.rate != nullptr ? rates.*(key.rate) : bytes.limit();
        }
        return found;
    }
    // What an operator has set.
    std::map<std::string, std::uint64_t> all_set() {
        const std::lock_guard lock(mutex_);
        return set_;
    }

  private:
    // The lock is held.
    RateLimits rates_now() const {
        RateLimits rates = configured_;
        for (const auto &[name, value] : set_) {
            const LimitKey *key = limit_key(name);
            if (key != nullptr && key->rate != nullptr) {
                rates.*(key->rate) = static_cast<std::size_t>(value);
            }
        }
        return rates;
    }
    void apply() {
        const auto most = set_.find("day_bytes");
        bytes.set_limit(most == set_.end() ? configured_bytes_ : most->second);
        rate.change(rates_now());
    }

    std::mutex mutex_;
    const RateLimits configured_;
    std::uint64_t configured_bytes_;
    std::map<std::string, std::uint64_t> set_;
};

} // namespace gateway

#endif
