// Limits how many connections there are, in all and from one address.
#ifndef WEB_CONNECTION_SLOTS_H
#define WEB_CONNECTION_SLOTS_H

#include <cstddef>
#include <functional>
#include <list>
#include <map>
#include <memory>
#include <optional>
#include <string>

namespace web {

// One thread uses it.
class ConnectionSlots : public std::enable_shared_from_this<ConnectionSlots> {
  private:
    struct Place {
        std::string address;
        bool is_taken = true;
        std::function<void()> give_up; // of one that waits for its peer
    };

  public:
    ConnectionSlots(std::size_t most, std::size_t most_of_address)
        : most_(most), most_of_address_(most_of_address) {}

    // A place, given back at its end.
    class Slot {
      public:
        Slot(std::shared_ptr<ConnectionSlots> slots, std::string address);
        ~Slot();
        Slot(Slot &&) = default;
        Slot &operator=(Slot &&) = delete;
        const std::string &address() const { return place_->address; }

        // The connection waits for its peer from now on: where room is wanted, its place is given
        // to another, and it is told to give up.
        void wait(std::function<void()> give_up);
        // It does not any more.
        void work();

      private:
        std::shared_ptr<ConnectionSlots> slots_; // null once it was moved
        std::unique_ptr<Place> place_;
    };

    // Nothing where all places are taken by connections that wait for nobody.
    std::optional<Slot> take(const std::string &address);

  private:
    // Whether there is room, once the connection that has waited longest has given up where there
    // was none: of all, or of this address.
    bool make_room(const std::string &address);
    bool end_first(const std::function<bool(const Place &)> &may_end);
    std::size_t of_address(const std::string &address) const;
    void release(Place &place);
    void forget(const Place &place);

    const std::size_t most_;
    const std::size_t most_of_address_;
    std::size_t taken_ = 0;
    std::map<std::string, std::size_t> of_address_;
    std::list<Place *> waiting_; // the first that has waited longest
};

} // namespace web

#endif
