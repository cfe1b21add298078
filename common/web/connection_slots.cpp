#include "connection_slots.h"

#include <utility>

namespace web {

ConnectionSlots::Slot::Slot(std::shared_ptr<ConnectionSlots> slots, std::string address)
    : slots_(std::move(slots)), place_(std::make_unique<Place>()) {
    place_->address = std::move(address);
    ++slots_->taken_;
    ++slots_->of_address_[place_->address];
}

ConnectionSlots::Slot::~Slot() {
    if (slots_) {
        slots_->forget(*place_);
        slots_->release(*place_);
    }
}

void ConnectionSlots::Slot::wait(std::function<void()> give_up) {
    slots_->forget(*place_);
    place_->give_up = std::move(give_up);
    if (place_->is_taken) {
        slots_->waiting_.push_back(place_.get());
    }
}

void ConnectionSlots::Slot::work() {
    slots_->forget(*place_);
}

std::optional<ConnectionSlots::Slot> ConnectionSlots::take(const std::string &address) {
    if (!make_room(address)) {
        return {};
    }
    return Slot(shared_from_this(), address);
}

bool ConnectionSlots::make_room(const std::string &address) {
    if (of_address(address) >= most_of_address_) {
        return end_first([&](const Place &place) { return place.address == address; });
    }
    return taken_ < most_ || end_first([](const Place &) { return true; });
}

bool ConnectionSlots::end_first(const std::function<bool(const Place &)> &may_end) {
    for (Place *const place : waiting_) {
        if (may_end(*place)) {
            forget(*place);
            release(*place);
            std::exchange(place->give_up, nullptr)();
            return true;
        }
    }
    return false;
}

std::size_t ConnectionSlots::of_address(const std::string &address) const {
    const auto own = of_address_.find(address);
    return own == of_address_.end() ? 0 : own->second;
}

void ConnectionSlots::release(Place &place) {
    if (!std::exchange(place.is_taken, false)) {
        return;
    }
    --taken_;
    const auto own = of_address_.find(place.address);
    if (--own->second == 0) {
        of_address_.erase(own);
    }
}

void ConnectionSlots::forget(const Place &place) {
    waiting_.remove_if([&](const Place *each) { return each == &place; });
}

} // namespace web
