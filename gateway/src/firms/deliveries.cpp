#include "firms/deliveries.h"

#include "session/session_names.h"

#include <stdexcept>
#include <utility>

#include <fmt/format.h>

namespace gateway {

namespace {

Handover handover_to(Engine &engine, const std::string &session) {
    return {[&engine](const Delivery &delivery, bool more_follow) {
                engine.deliver(delivery, more_follow);
            },
            [&engine](const Delivery &delivery) { return engine.deliver_at_once(delivery); },
            [&engine, session] { engine.disconnect(session); }};
}

} // namespace

Deliveries::Deliveries(VenueDay &day, Engine &engine, Log &log) : log_(log) {
    const auto failed = [&status = day.status, &log](const std::string &cause) {
        const std::string told = log.failure();
        status.fail(told.empty() ? cause : told);
    };
    for (const std::string &firm : day.config.firms.names) {
        mailboxes_.try_emplace(firm, handover_to(engine, session_name(day.config.venue, firm)),
                               day.config.waiting_messages, failed);
    }
}

Mailbox &Deliveries::mailbox_of(const std::string &firm) {
    const auto found = mailboxes_.find(firm);
    if (found == mailboxes_.end()) {
        throw std::runtime_error(fmt::format("there is no firm {}", firm));
    }
    return found->second;
}

void Deliveries::take(Delivery delivery) {
    Mailbox &mailbox = mailbox_of(delivery.firm);
    if (is_first_) {
        is_first_ = false;
        mailbox.put_now(std::move(delivery));
    } else {
        mailbox.put(std::move(delivery));
    }
}

void Deliveries::pauses() {
    is_first_ = true;
}

void Deliveries::answered(std::uint32_t place) {
    log_.answered(place);
}

void Deliveries::wait_until_handed_over() {
    for (auto &[firm, mailbox] : mailboxes_) {
        mailbox.wait_until_empty();
    }
}

} // namespace gateway
