#include "side.h"

#include "../texts.h"

#include <algorithm>
#include <iterator>
#include <utility>

namespace sessions {

namespace {

// Where the id of a message stands: none in what is the session's own.
std::string id_of(const std::string &frame) {
    const std::string type = value_of(frame, 35);
    if (type == "3") {
        return value_of(frame, 58);
    }
    return type == "j" ? std::string() : value_of(frame, 117);
}

std::string about(const std::string &frame) {
    return value_of(frame, 35) + " " + value_of(frame, 45);
}

bool is_answer(const std::string &frame) {
    const std::string type = value_of(frame, 35);
    return (type == "3" || type == "j") && id_of(frame).empty();
}

// The first place at which two lists differ, in words.
std::string difference(const char *what, const std::vector<std::string> &due,
                       const std::vector<std::string> &found) {
    const std::size_t most = std::min(due.size(), found.size());
    const auto at = static_cast<std::size_t>(std::distance(
        due.begin(),
        std::mismatch(due.begin(), due.begin() + static_cast<std::ptrdiff_t>(most), found.begin())
            .first));
    if (at == due.size() && at == found.size()) {
        return {};
    }
    const std::string wanted = at < due.size() ? due[at] : "nothing";
    const std::string has = at < found.size() ? found[at] : "nothing";
    return std::string(" ") + what + " " + std::to_string(at) + " is " + has + " in place of " +
           wanted;
}

} // namespace

Side::Side(const Names &names, bool is_called, Ends ends)
    : is_called_(is_called), ends_(std::move(ends)), session_(*this, names) {}

void Side::give(What what) {
    const std::string id = (what == What::bad ? "b" : "g") + std::to_string(given_.size() + 1);
    given_.push_back(id);
    if (what == What::reject) {
        session_.give(field(35, "3") + field(45, "1") + field(58, id));
        return;
    }
    const std::string spoils = what == What::bad ? field(36, "x") : std::string();
    session_.give(field(35, is_called_ ? "AI" : "S") + field(117, id) + field(297, "0") + spoils);
    if (what == What::good) {
        to_take_.push_back(id);
    }
}

void Side::send(int connection, const std::string &bytes) {
    // Its Logon has left, and its peer counts no second one: the number is one that is missing.
    if (is_called_ || value_of(bytes, 35) != "A") {
        ends_.send(connection, bytes);
    }
}

// A 35=j of the peer is one of the messages that a session gives to its venue.
void Side::taken(const std::string &frame) {
    if (!is_answer(frame)) {
        taken_.push_back(id_of(frame));
    }
}

bool Side::takes(const std::string &frame) {
    if (is_answer(frame) || ends_.takes()) {
        return true;
    }
    denied_.insert(id_of(frame));
    return false;
}

bool Side::knows(const Question &asked) const {
    return !is_called_ || (asked.username == "dlr1" && asked.password == "secret");
}

void Side::saw(const Seen &seen) {
    laws_.see(seen);
    if (seen.turn.told.first.is_kept && is_answer(seen.turn.kept)) {
        answered_.push_back(about(seen.turn.kept));
    }
    if (!is_counted(seen)) {
        return;
    }
    const std::string &came = seen.came->bytes;
    if (is_answer(came)) {
        told_.push_back(about(came));
    } else if (!id_of(came).empty()) {
        heard_.push_back(id_of(came));
    }
}

std::string Side::wrong_of(const Side &peer) const {
    std::vector<std::string> due;
    std::copy_if(peer.to_take_.begin(), peer.to_take_.end(), std::back_inserter(due),
                 [this](const std::string &id) { return denied_.count(id) == 0; });
    return difference("what it counted:", peer.given_, heard_) +
           difference("what it took:", due, taken_) +
           difference("what it was told:", peer.answered_, told_);
}

} // namespace sessions
