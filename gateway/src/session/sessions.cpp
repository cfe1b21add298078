#include "session/sessions.h"

#include "session/firm_session.h"
#include "session/session_names.h"

#include <algorithm>
#include <stdexcept>

#include <sched.h>

namespace gateway {

namespace {

int own_processors() {
    cpu_set_t own{};
    return ::sched_getaffinity(0, sizeof own, &own) == 0 ? CPU_COUNT(&own) : 1;
}

} // namespace

std::size_t judged_at_once(int processors) {
    constexpr int most = 4;
    return static_cast<std::size_t>(std::clamp(processors / 2, 1, most));
}

Sessions::Sessions(const std::vector<SessionStart> &starts, EngineEvents &events)
    : events_(events), turns_(judged_at_once(own_processors())),
      handshakes_(judged_at_once(own_processors())) {
    add(starts);
}

Sessions::~Sessions() = default;

void Sessions::add(const std::vector<SessionStart> &starts) {
    for (const SessionStart &start : starts) {
        sessions_[session_name(start.venue, start.firm)] =
            std::make_unique<FirmSession>(start, events_);
        venues_.insert(start.venue);
    }
}

// One by one: two names together may be another pair's, too.
FirmSession *Sessions::named_by(const std::string &firm, const std::string &venue) const {
    for (const auto &session : sessions_) {
        if (session.second->is_named(firm, venue)) {
            return session.second.get();
        }
    }
    return nullptr;
}

FirmSession *Sessions::any_of(const std::string &venue) const {
    for (const auto &session : sessions_) {
        if (session.second->is_of(venue)) {
            return session.second.get();
        }
    }
    return sessions_.empty() ? nullptr : sessions_.begin()->second.get();
}

FirmSession &Sessions::of(const std::string &name) const {
    const auto found = sessions_.find(name);
    if (found == sessions_.end()) {
        throw std::runtime_error("no session " + name);
    }
    return *found->second;
}

void Sessions::deliver(const Delivery &delivery, bool more_follow) const {
    of(delivery.session).deliver(delivery, more_follow);
}

void Sessions::log_out(const std::string &reason) const {
    for (const auto &[name, session] : sessions_) {
        try {
            session->log_out(reason);
        } catch (const std::exception &fault) {
            // The log takes nothing any more, and has told it.
            events_.dropped("session", name + ": " + fault.what());
        }
    }
}

} // namespace gateway
