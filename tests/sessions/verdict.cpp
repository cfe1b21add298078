// What is sent and given, what each side saw of it, and the verdict.
#include "world.h"

#include "texts.h"

#include <algorithm>
#include <cstdio>

namespace sessions {

// --- what is sent and given

void World::send(bool is_bad) {
    ++asked_;
    const std::string id = (is_bad ? "b" : "f") + std::to_string(asked_);
    (is_bad ? bad_ : good_).push_back(id);
    // Of those that are spoilt on the way the message itself is right.
    firm_.send(id, is_bad && (!kind_.bad_frames || asked_ % 6 == 0));
}

void World::give() {
    ++given_;
    const std::string number = std::to_string(given_);
    if (draw(100) < kind_.rejects) {
        venue_.give(field(35, "3") + field(45, "1") + field(58, "v" + number) +
                    field(1181, number));
    } else {
        venue_.give(field(35, "AI") + field(117, "v" + number) + field(297, "0"));
    }
}

void World::reset() {
    say("--- an operator's reset");
    accepted_.clear(); // before it: a Logon that waits may be accepted with the reset
    venue_.reset();
    const std::set<std::string> taken(taken_.begin(), taken_.end());
    for (const auto *sent : {&good_, &bad_}) {
        for (const std::string &id : *sent) {
            if (taken.count(id) == 0) {
                may_be_lost_.insert(id);
            }
        }
    }
    reset_at_logon();
}

bool World::takes(const std::string &frame) {
    (void)frame;
    return draw(100) >= kind_.denied;
}

void World::taken(const std::string &frame) {
    taken_.push_back(value_of(frame, 117));
    say(" the venue takes " + taken_.back());
}

void World::received(const Received &message) {
    if (message.is_reject) {
        hear_reject(message);
        return;
    }
    say("   the firm takes " + message.id);
    got_.push_back(message);
}

// --- Rejects of the session

void World::rejected(const std::string &frame, bool is_counted) {
    Rejection rejection;
    rejection.about = value_of(frame, 34);
    rejection.id = value_of(frame, 117);
    rejection.may_be_lost = !is_counted;
    rejections_.push_back(rejection);
    if (is_counted && !rejection.id.empty()) {
        rejected_ids_.insert(rejection.id);
    }
}

void World::rejects_dropped() {
    for (Rejection &rejection : rejections_) {
        rejection.may_be_lost = true;
        rejection.numbers.clear();
    }
}

void World::hear_reject(const Received &message) {
    say("   the firm hears the Reject of " + message.about);
    Rejection *best = nullptr;
    bool is_known = false;
    for (Rejection &rejection : rejections_) {
        if (rejection.about != message.about) {
            continue;
        }
        is_known = true;
        if (message.is_again && rejection.numbers.count(message.number) > 0) {
            return; // heard already, and sent again
        }
        if (rejection.heard == 0 &&
            (best == nullptr || (best->may_be_lost && !rejection.may_be_lost))) {
            best = &rejection;
        }
    }
    if (best != nullptr) {
        ++best->heard;
        best->numbers.insert(message.number);
    } else {
        ++(is_known ? twice_ : strange_);
    }
}

// --- the verdict

std::string World::wrong_rejects() const {
    int lost = 0;
    for (const Rejection &rejection : rejections_) {
        lost += rejection.heard == 0 && !rejection.may_be_lost ? 1 : 0;
    }
    std::string wrong;
    if (lost > 0) {
        wrong += " Rejects lost: " + std::to_string(lost);
    }
    if (twice_ > 0) {
        wrong += " Rejects heard twice: " + std::to_string(twice_);
    }
    if (strange_ > 0) {
        wrong += " Rejects of nothing: " + std::to_string(strange_);
    }
    return wrong;
}

// Each message once and in order; of those that were to be rejected each taken once, or rejected.
std::string World::wrong_at_venue() const {
    std::string wrong;
    std::set<std::string> bad_taken;
    std::vector<std::string> good_taken;
    for (const std::string &id : taken_) {
        if (rejected_ids_.count(id) > 0 || (id[0] == 'b' && !bad_taken.insert(id).second)) {
            wrong += " taken twice, or taken and rejected: " + id;
        }
        if (id[0] != 'b') {
            good_taken.push_back(id);
        }
    }
    for (const std::string &id : bad_) {
        if (may_be_lost_.count(id) == 0 && bad_taken.count(id) == 0 &&
            rejected_ids_.count(id) == 0) {
            wrong += " neither taken nor rejected: " + id;
        }
    }
    std::size_t at = 0;
    for (const std::string &id : good_) {
        if (at < good_taken.size() && good_taken[at] == id) {
            ++at;
        } else if (may_be_lost_.count(id) == 0 && rejected_ids_.count(id) == 0) {
            return wrong + " not taken in its turn: " + id;
        }
    }
    return at == good_taken.size() ? wrong : wrong + " taken that was not sent: " + good_taken[at];
}

// Each message in order, and once but for copies that say so.
std::string World::wrong_at_firm() const {
    int last = 0;
    for (const Received &message : got_) {
        const int number = std::stoi(message.id.substr(1));
        if (number == last + 1) {
            last = number;
        } else if (number > last || !message.is_again) {
            return " the firm got " + message.id + " behind v" + std::to_string(last);
        }
    }
    return last == given_ ? std::string() : " the firm misses " + std::to_string(given_ - last);
}

std::string World::verdict() {
    std::string wrong = wrong_rejects() + wrong_at_venue() + wrong_at_firm();
    if (!venue_.is_on() || !firm_.is_logged_on()) {
        wrong += " not logged on";
    } else if (!venue_.is_idle()) {
        wrong += " not idle";
    }
    return wrong;
}

} // namespace sessions
