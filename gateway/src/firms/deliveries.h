// Carries the venue's messages to the firms' sessions.
#ifndef GATEWAY_FIRMS_DELIVERIES_H
#define GATEWAY_FIRMS_DELIVERIES_H

#include "firms/mailbox.h"
#include "log/log.h"
#include "session/engine.h"
#include "venue/message_sink.h"
#include "venue/venue_day.h"

#include <map>
#include <string>

namespace gateway {

// A mailbox for each firm.
class Deliveries final : public MessageSink {
  public:
    // The engine has a session for each firm before the first message is taken.
    Deliveries(VenueDay &day, Engine &engine, Log &log);
    Deliveries(const Deliveries &) = delete;
    Deliveries &operator=(const Deliveries &) = delete;

    // MessageSink. The first message after a pause, as a rule the answer to whoever waits for one,
    // is handed over by this thread and before the others are put into their mailboxes: to wake
    // their threads takes time. Throws std::runtime_error where there is no such firm.
    void take(Delivery delivery) override;
    void pauses() override;
    void answered(std::uint32_t place) override;

    // Returns when the sessions have all that was taken; of any thread.
    void wait_until_handed_over();

  private:
    Mailbox &mailbox_of(const std::string &firm);

    Log &log_;
    bool is_first_ = true; // since the last pause
    std::map<std::string, Mailbox> mailboxes_;
};

} // namespace gateway

#endif
