// Carries operators' orders to the firms' sessions.
#ifndef GATEWAY_FIRMS_SESSION_COMMANDS_H
#define GATEWAY_FIRMS_SESSION_COMMANDS_H

#include "log/notes.h"

#include <cstdint>
#include <functional>
#include <map>
#include <mutex>
#include <string>
#include <utility>
#include <vector>

namespace gateway {

// An order is noted when its act is committed, and done by another thread: the one that commits the
// log must wait for no firm. A start notes the orders of the day again, in their order: to suspend
// and to resume do the same twice, a reset is done once, and a release that was carried out is not
// noted again.
class SessionCommands {
  public:
    using Epoch = std::function<std::uint32_t(const std::string &firm)>; // resets that were done
    using Do = std::function<void(const FirmOrdered &)>;

    // Of any thread; waits for nothing.
    void note(const FirmOrdered &ordered) {
        const std::lock_guard lock(mutex_);
        noted_.push_back(ordered);
    }
    // Does what was noted and is not done yet.
    void carry_out(const Epoch &epoch_of, const Do &carry_out_one) {
        const std::lock_guard one_at_a_time(doing_);
        for (const FirmOrdered &ordered : take()) {
            const bool is_reset = ordered.order == FirmOrder::reset;
            if (!is_reset || ++resets_[ordered.firm] > epoch_of(ordered.firm)) {
                carry_out_one(ordered);
            }
        }
    }

  private:
    std::vector<FirmOrdered> take() {
        const std::lock_guard lock(mutex_);
        return std::exchange(noted_, {});
    }

    std::mutex mutex_;
    std::vector<FirmOrdered> noted_;
    std::mutex doing_;                            // over what follows
    std::map<std::string, std::uint32_t> resets_; // that were ordered of each firm
};

} // namespace gateway

#endif
