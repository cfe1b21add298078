// Gives slots to connections that have no session yet.
#ifndef GATEWAY_SESSION_STRANGERS_H
#define GATEWAY_SESSION_STRANGERS_H

#include <cstddef>
#include <cstdint>
#include <map>
#include <mutex>
#include <string>

namespace gateway {

// So many in all, and so many of one address: whoever connects takes room from nobody who has
// logged on, and little from others who are about to. Any thread may call it.
class Strangers {
  public:
    using Slot = std::uint64_t; // 0 for none

    Strangers(std::size_t most, std::size_t most_of_address)
        : most_(most), most_of_address_(most_of_address) {}
    Strangers(const Strangers &) = delete;
    Strangers &operator=(const Strangers &) = delete;

    struct Entry {
        Slot slot = 0;           // the newcomer's
        Slot makes_room = 0;     // whose connection has to end at once in favour of it
        bool is_address = false; // without a slot: the address has all that it may have
    };

    // Takes a slot for a connection from this address (without its port), if there is one. Where
    // all are taken, the address that has most of them makes room for one that has fewer: by its
    // oldest connection that is silent, or, if it has two more, by one whose Logon is being judged.
    Entry take(const std::string &address);
    // The connection's Logon is being judged.
    void judges(Slot slot);
    // Gives a slot back.
    void give_back(Slot slot);

  private:
    struct Holder {
        std::string address;
        bool is_judged = false;
        bool leaves = false; // it has made room, and is about to end
    };

    std::size_t count_of(const std::string &address) const;
    Slot who_makes_room_for(const std::string &address) const;
    void leave(Holder &holder);

    const std::size_t most_;
    const std::size_t most_of_address_;
    std::mutex mutex_;
    Slot last_ = 0;
    std::map<Slot, Holder> holders_;             // the oldest first
    std::map<std::string, std::size_t> staying_; // by address, of those that do not leave
    std::size_t leaving_ = 0;
};

// A slot that was taken, until it is given back or this ends.
class StrangerSlot {
  public:
    StrangerSlot(Strangers &strangers, Strangers::Slot slot) : strangers_(strangers), slot_(slot) {}
    ~StrangerSlot() { give_back(); }
    StrangerSlot(const StrangerSlot &) = delete;
    StrangerSlot &operator=(const StrangerSlot &) = delete;
    StrangerSlot(StrangerSlot &&other) noexcept : strangers_(other.strangers_), slot_(other.slot_) {
        other.slot_ = 0;
    }

    Strangers::Slot number() const { return slot_; }
    void judges() { strangers_.judges(slot_); }
    void give_back() {
        strangers_.give_back(slot_);
        slot_ = 0;
    }

  private:
    Strangers &strangers_;
    Strangers::Slot slot_;
};

} // namespace gateway

#endif
