#include "session/strangers.h"

namespace gateway {

std::size_t Strangers::count_of(const std::string &address) const {
    const auto found = staying_.find(address);
    return found == staying_.end() ? 0 : found->second;
}

Strangers::Entry Strangers::take(const std::string &address) {
    const std::lock_guard<std::mutex> lock(mutex_);
    if (count_of(address) >= most_of_address_) {
        return {0, 0, true};
    }
    Slot makes_room = 0;
    if (holders_.size() - leaving_ >= most_) {
        // Those that leave are counted too: they still have a thread each.
        makes_room = leaving_ < most_ ? who_makes_room_for(address) : 0;
        if (makes_room == 0) {
            return {};
        }
        leave(holders_[makes_room]);
    }
    holders_[++last_].address = address;
    ++staying_[address];
    return {last_, makes_room, false};
}

Strangers::Slot Strangers::who_makes_room_for(const std::string &address) const {
    const std::size_t own = count_of(address);
    Slot found = 0;
    std::size_t most = 0;
    for (const auto &each : holders_) {
        const Holder &holder = each.second;
        const std::size_t count = holder.leaves ? 0 : count_of(holder.address);
        // One that is judged yields to a silent one of the same address.
        const std::size_t weight = 2 * count - (holder.is_judged && count > 0 ? 1 : 0);
        if (count > own + (holder.is_judged ? 1 : 0) && weight > most) {
            found = each.first;
            most = weight;
        }
    }
    return found;
}

void Strangers::leave(Holder &holder) {
    const auto count = staying_.find(holder.address);
    if (--count->second == 0) {
        staying_.erase(count);
    }
    holder.leaves = true;
    ++leaving_;
}

void Strangers::judges(Slot slot) {
    const std::lock_guard<std::mutex> lock(mutex_);
    const auto found = holders_.find(slot);
    if (found != holders_.end()) {
        found->second.is_judged = true;
    }
}

void Strangers::give_back(Slot slot) {
    const std::lock_guard<std::mutex> lock(mutex_);
    const auto found = holders_.find(slot);
    if (found == holders_.end()) {
        return;
    }
    if (!found->second.leaves) {
        leave(found->second);
    }
    --leaving_;
    holders_.erase(found);
}

} // namespace gateway
