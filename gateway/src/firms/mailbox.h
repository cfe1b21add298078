// The messages that wait for one firm's session, and the thread that hands them over.
#ifndef GATEWAY_FIRMS_MAILBOX_H
#define GATEWAY_FIRMS_MAILBOX_H

#include "session/session_event.h"

#include <condition_variable>
#include <cstddef>
#include <deque>
#include <functional>
#include <mutex>
#include <stop_token>
#include <string>
#include <thread>

namespace gateway {

// How messages come to one session: as by Engine's functions of these names.
struct Handover {
    std::function<void(const Delivery &delivery, bool more_follow)> deliver;
    std::function<bool(const Delivery &delivery)> deliver_at_once;
    std::function<void()> disconnect;
};

// One firm's messages of the venue. Whoever reads the venue puts them here, so that a session which
// is slow holds up nobody but its firm.
class Mailbox {
  public:
    // failed is called where a message can't be handed over: the log takes nothing any more.
    Mailbox(Handover session, std::size_t limit, std::function<void(const std::string &)> failed);

    // Where too many wait, the firm's connection is ended, and room waited for: without a
    // connection messages are handed over as fast as the log takes them. One thread puts.
    void put(Delivery delivery);
    // Hands it over on this thread, if nothing is before it and the session does nothing else;
    // otherwise as put().
    void put_now(Delivery delivery);

    // Returns when all that was put is handed over.
    void wait_until_empty();

  private:
    void run(const std::stop_token &stop);
    // Without the lock, which is held before and after. What `deliver` returned, or false where it
    // failed.
    bool hand_over(std::unique_lock<std::mutex> &lock, const std::function<bool()> &deliver);

    const Handover session_;
    const std::size_t limit_;
    std::function<void(const std::string &)> failed_;

    std::mutex mutex_;
    std::condition_variable_any came_; // for the thread
    std::condition_variable_any went_; // for whoever waits for room or for the end
    std::deque<Delivery> waiting_;
    bool handing_over_ = false;
    bool broken_ = false;
    std::jthread thread_;
};

} // namespace gateway

#endif
