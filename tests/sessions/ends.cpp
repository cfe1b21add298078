// What the two sides do at their ends of a line.
#include "world.h"

#include "texts.h"

#include <algorithm>
#include <cstdio>

namespace sessions {

namespace {

// A body with another value of a field of its header.
std::string with_value(const std::string &body, int tag, const std::string &value) {
    const std::string name = '\x01' + std::to_string(tag) + "=";
    const std::size_t at = body.find(name) + name.size();
    return body.substr(0, at) + value + body.substr(body.find('\x01', at));
}

// A body without a field of its header.
std::string without(const std::string &body, int tag) {
    const std::size_t at = body.find('\x01' + std::to_string(tag) + "=");
    return body.substr(0, at) + body.substr(body.find('\x01', at + 1));
}

// A message of the firm's application that is to be rejected, spoilt by its number. What is sent
// again is spoilt in its own way alone: of the others the first copy was.
std::string spoilt_body(const std::string &body, const std::string &id, bool is_again) {
    const int kind = std::stoi(id.substr(1)) % 6;
    const Millis off = id.size() % 2 == 0 ? -180000 : 180000;
    if (kind == 2) {
        return body + field(112, "a") + field(112, "b");
    }
    if (is_again) {
        return kind == 5 ? without(body, 122) : body;
    }
    switch (kind) {
    case 1:
        return with_value(body, 52, timestamp(now() + off));
    case 3:
        return with_value(body, 52, "x");
    case 4:
        return with_value(body, 49, "NONE");
    default:
        return body;
    }
}

} // namespace

// --- the venue's end

void World::send(int connection, const std::string &bytes) {
    say(" venue> " + seen(bytes));
    const auto at = routes_.find(connection);
    if (at != routes_.end() && at->second.venue_end) {
        put(at->second.down, at->second.last_down, bytes);
    }
}

void World::close(int connection) {
    say(" the venue closes " + std::to_string(connection));
    const auto at = routes_.find(connection);
    if (at == routes_.end()) {
        return;
    }
    Route &route = at->second;
    route.venue_end = false;
    route.up.clear();
    if (draw(5) == 0) {
        chop(route.down);
    }
    route.firm_hears = std::max(route.last_down, now()) + delay();
}

void World::restart_venue() {
    say("--- the venue restarts");
    venue_.restart();
    for (auto &at : routes_) {
        Route &route = at.second;
        if (!route.venue_end) {
            continue;
        }
        route.venue_end = false;
        route.up.clear();
        chop(route.down);
        route.firm_hears = std::max(route.last_down, now()) + delay();
        route.venue_hears = -1;
    }
}

void World::note(const std::string &text) {
    say(" " + text);
}

// --- the firm's end

void World::sent(const std::string &frame) {
    const std::string bytes = kind_.bad_frames ? spoilt(frame) : frame;
    say("   firm> " + seen(bytes));
    const auto at = routes_.find(current_);
    if (at == routes_.end() || !at->second.firm_end) {
        return;
    }
    std::string came = bytes;
    if (!is_settling_down_ && draw(100) < kind_.garbled && came.size() > 20) {
        came[came.size() - 9] ^= 1; // the last digit of a value: the sum is wrong
    }
    put(at->second.up, at->second.last_up, came);
}

void World::disconnected() {
    const auto at = routes_.find(current_);
    if (at == routes_.end()) {
        return;
    }
    Route &route = at->second;
    route.firm_end = false;
    route.down.clear();
    if (draw(5) == 0) {
        chop(route.up);
    }
    route.venue_hears = std::max(route.last_up, now()) + delay();
    current_ = -1;
}

void World::restart_firm(bool forgets) {
    say("--- the firm restarts");
    if (is_connected()) {
        Route &route = routes_[current_];
        route.firm_end = false;
        route.down.clear();
        chop(route.up);
        route.venue_hears = std::max(route.last_up, now()) + delay();
        current_ = -1;
        firm_.detach();
    }
    if (forgets) {
        firm_.forget_last();
    }
    firm_.start();
}

void World::log_out_firm() {
    if (is_connected() && firm_.is_logged_on()) {
        firm_.log_out();
    }
}

void World::logged_on() {
    // An answer from before an operator's reset may still have been on its way.
    if (accepted_.count(current_) > 0) {
        has_logged_on_ = true;
        firm_.set_resets(false);
    }
}

void World::reset_at_logon() {
    resets_ = true;
    has_logged_on_ = false;
    firm_.set_resets(true);
}

void World::settle_down() {
    say("--- the line stays up");
    is_settling_down_ = true;
}

// What the firm sends that is to be rejected, and now and then a fault of its own messages.
std::string World::spoilt(const std::string &frame) {
    const std::string id = value_of(frame, 117);
    const std::string type = value_of(frame, 35);
    const std::string body = body_of(frame);
    if (type == "S" && !id.empty() && id[0] == 'b') {
        return framed(spoilt_body(body, id, value_of(frame, 43) == "Y"));
    }
    if (!is_settling_down_ && type == "0" && has_tag(frame, 112) && draw(20) == 0) {
        return framed(body + field(112, "z"));
    }
    if (!is_settling_down_ && type == "2" && draw(40) == 0) {
        return framed(body + field(16, "0"));
    }
    return frame;
}

} // namespace sessions
