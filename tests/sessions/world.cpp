#include "world.h"

#include "texts.h"

#include <algorithm>
#include <cstdio>

namespace sessions {

World::World(std::uint32_t seed, const Kind &kind)
    : random_(seed), kind_(kind), firm_(*this, kind.heartbeat, kind.dictionary) {
    firm_.start();
}

void World::say(const std::string &text) const {
    if (kind_.is_loud) {
        std::printf("%9.3f %s\n", static_cast<double>(moment()) / 1000.0, text.c_str());
    }
}

// --- what the two sides do by the clock

void World::advance(Millis span) {
    set_now(now() + span);
    venue_.tick();
    if (now() >= next_second_) {
        next_second_ = now() + 1000;
        if (is_connected()) {
            firm_.next();
        }
    }
}

void World::run(Millis span) {
    const Millis until = now() + span;
    Millis again = now() + 200;
    while (now() < until) {
        advance(50);
        deliver(true);
        for (int i = 0; i < 50 && venue_.flow(); ++i) {
        }
        deliver(true);
        if (is_connected()) {
            again = now() + 1500;
        } else if (now() >= again) {
            connect();
            again = now() + 1500;
        }
    }
}

// --- lines

void World::connect() {
    if (is_connected()) {
        return;
    }
    current_ = next_route_++;
    routes_[current_] = Route();
    say("--- line " + std::to_string(current_));
    venue_.opened(current_);
    firm_.connect();
}

void World::put(Way &way, Millis &last, const std::string &bytes) {
    last = std::max(last, now() + delay());
    way.push_back({last, bytes});
    ++messages_;
}

void World::chop(Way &way) {
    std::size_t all = 0;
    for (const Part &part : way) {
        all += part.bytes.size();
    }
    std::size_t left = draw(3) == 0 ? 0 : draw(static_cast<unsigned>(all) + 1);
    Way kept;
    for (const Part &part : way) {
        if (left == 0) {
            break;
        }
        const std::size_t len = std::min(left, part.bytes.size());
        kept.push_back({part.due, part.bytes.substr(0, len)});
        left -= len;
    }
    way.swap(kept);
}

void World::cut() {
    if (!is_connected()) {
        return;
    }
    Route &route = routes_[current_];
    say("--- line " + std::to_string(current_) + " breaks");
    chop(route.up);
    chop(route.down);
    const Millis up = route.up.empty() ? 0 : route.up.back().due;
    const Millis down = route.down.empty() ? 0 : route.down.back().due;
    route.venue_hears = std::max(up, now()) + (draw(4) == 0 ? draw(5000) : 0);
    route.firm_hears = std::max(down, now()) + (draw(4) == 0 ? draw(3000) : 0);
    route.firm_end = false;
    route.venue_end = false;
}

bool World::pull(Way &way, bool all, std::string &bytes) {
    if (way.empty() || way.front().due > now()) {
        return false;
    }
    Part &part = way.front();
    bytes = part.bytes;
    if (!all && draw(4) == 0 && bytes.size() > 1) {
        const std::size_t len = 1 + draw(static_cast<unsigned>(bytes.size()) - 1);
        part.bytes = bytes.substr(len);
        bytes.resize(len);
    } else {
        way.pop_front();
    }
    return true;
}

void World::deliver_up(int connection, bool all) {
    std::string bytes;
    if (all || draw(10) < 7) {
        while (routes_.count(connection) > 0 && pull(routes_[connection].up, all, bytes)) {
            venue_.bytes(connection, bytes);
            if (!all && draw(3) == 0) {
                break;
            }
        }
    }
    const auto at = routes_.find(connection);
    if (at == routes_.end()) {
        return;
    }
    Route &route = at->second;
    if (route.venue_hears >= 0 && route.venue_hears <= now() && route.up.empty()) {
        route.venue_hears = -1;
        route.venue_end = false;
        venue_.gone(connection);
    }
}

void World::deliver_down(bool all) {
    const int connection = current_;
    std::string bytes;
    if (all || draw(10) < 7) {
        while (connection == current_ && pull(routes_[connection].down, all, bytes)) {
            firm_.take(bytes);
            if (!all && draw(3) == 0) {
                break;
            }
        }
    }
    if (connection != current_) {
        return;
    }
    Route &route = routes_[connection];
    if (route.firm_hears >= 0 && route.firm_hears <= now() && route.down.empty()) {
        say("--- the firm hears that line " + std::to_string(connection) + " is gone");
        const Millis venue_hears = route.venue_hears;
        route.firm_hears = -1;
        firm_.lose();
        if (venue_hears >= 0) {
            routes_[connection].venue_hears = venue_hears;
        }
        current_ = -1;
    }
}

void World::forget(int connection) {
    const auto at = routes_.find(connection);
    if (connection != current_ && at != routes_.end() && at->second.venue_hears < 0 &&
        at->second.up.empty() && !at->second.venue_end) {
        routes_.erase(at);
    }
}

void World::deliver(bool all) {
    std::vector<int> connections;
    for (const auto &route : routes_) {
        connections.push_back(route.first);
    }
    for (const int connection : connections) {
        deliver_up(connection, all);
        if (connection == current_) {
            deliver_down(all);
        }
        forget(connection);
    }
}

} // namespace sessions
