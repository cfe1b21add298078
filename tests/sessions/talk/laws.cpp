#include "laws.h"

#include "../texts.h"

#include <cstdlib>
#include <initializer_list>
#include <set>
#include <stdexcept>

namespace sessions {

namespace {

constexpr std::uint32_t PHASE_ON = 1, PHASE_LOGOUT = 2;

std::string type_of(const std::string &frame) {
    return value_of(frame, 35);
}

[[noreturn]] void break_law(const char *law, const Seen &seen) {
    throw std::runtime_error(std::string(law) + ": came " +
                             (seen.came == nullptr ? "nothing" : sessions::seen(seen.came->bytes)) +
                             ", leaves " + sessions::seen(seen.turn.first + seen.turn.second));
}

// The connection of a session, or 0.
int holder(const SessionState &state) {
    if (state.phase == PHASE_ON) {
        return static_cast<int>(state.line.connection);
    }
    return state.phase == PHASE_LOGOUT ? static_cast<int>(state.connection) : 0;
}

// Whether a message is what its length and its sum say.
bool is_whole(const std::string &bytes) {
    return framed(body_of(bytes)) == bytes;
}

bool is_gap_fill(const std::string &frame) {
    return type_of(frame) == "4";
}

// The session's own, of which nothing is given to the venue.
bool is_of_session(const std::string &frame) {
    static const std::set<std::string> own = {"A", "0", "1", "2", "3", "4", "5"};
    return own.count(type_of(frame)) > 0;
}

// What the session keeps no copy of as it sends it: all but an answer (35=0) that had to wait.
bool is_passing(const std::string &frame) {
    static const std::set<std::string> passing = {"A", "0", "1", "2", "5"};
    return passing.count(type_of(frame)) > 0;
}

// A message without the fields of the session's header.
std::string stripped(const std::string &frame) {
    static const std::set<std::string> header = {"49", "56", "34", "43", "52", "122", "97"};
    const std::string body = body_of(frame);
    std::string rest;
    for (std::size_t at = 0; at < body.size();) {
        const std::size_t end = body.find('\x01', at) + 1;
        if (header.count(body.substr(at, body.find('=', at) - at)) == 0) {
            rest += body.substr(at, end - at);
        }
        at = end;
    }
    return rest;
}

// Whether a number under which something is kept that is to come again lies in a gap fill.
bool covers_what_is_kept(const std::string &fill, const std::map<std::uint64_t, Kept> &kept) {
    const std::uint64_t end = std::strtoull(value_of(fill, 36).c_str(), nullptr, 10);
    for (auto at = kept.lower_bound(number_of(fill)); at != kept.end() && at->first < end; ++at) {
        if (type_of(at->second.frame) != "0") {
            return true;
        }
    }
    return false;
}

} // namespace

std::uint64_t number_of(const std::string &frame) {
    return std::strtoull(value_of(frame, 34).c_str(), nullptr, 10);
}

bool is_counted(const Seen &seen) {
    return seen.came != nullptr && !is_gap_fill(seen.came->bytes) &&
           seen.after.day.expected == seen.before.day.expected + 1;
}

void Laws::see(const Seen &seen) {
    check_logon(seen);
    check_counted(seen);
    for (const std::string *frame : {&seen.turn.first, &seen.turn.second}) {
        if (!frame->empty()) {
            check_left(seen, *frame);
        }
    }
}

void Laws::check_logon(const Seen &seen) {
    const Came *came = seen.came;
    const bool is_logon = came != nullptr && came->is_known && type_of(came->bytes) == "A";
    const int after = holder(seen.after);
    if (holder(seen.before) != has_) {
        has_ = 0; // that connection was gone meanwhile
    }
    const bool enters = after != 0 && after != has_;
    if (enters && !(is_logon && came->connection == after)) {
        break_law("a session without a Logon", seen);
    }
    const bool had = came != nullptr && has_ != 0 && came->connection == has_;
    const bool moves = seen.after.day.expected != seen.before.day.expected;
    if ((seen.turn.told.takes != 0 && !had) || (moves && !had && !enters)) {
        break_law("bytes without a Logon", seen);
    }
    const int to = static_cast<int>(seen.turn.told.connection);
    const bool leaves = !seen.turn.first.empty() || !seen.turn.second.empty();
    const bool refuses = is_logon && came->connection == to && type_of(seen.turn.first) == "5";
    if (leaves && to != has_ && !(enters && to == after) && !refuses) {
        break_law("an answer without a Logon", seen);
    }
    has_ = after;
}

void Laws::check_counted(const Seen &seen) {
    const std::uint64_t before = seen.before.day.expected, after = seen.after.day.expected;
    const std::uint64_t takes = seen.turn.told.takes;
    if (takes != 0 && (takes <= taken_ || takes != before || after != before + 1)) {
        break_law("a message is given twice, or is not counted", seen);
    }
    taken_ = takes != 0 ? takes : taken_;
    if (before == after) {
        return;
    }
    if (seen.came == nullptr || !is_whole(seen.came->bytes)) {
        break_law("what is no message moves the expected number", seen);
    }
    const std::string &came = seen.came->bytes;
    if (is_gap_fill(came)) {
        if (after < before || std::to_string(after) != value_of(came, 36)) {
            break_law("a SequenceReset moves the expected number elsewhere", seen);
        }
        return;
    }
    if (after != before + 1 || number_of(came) != before) {
        break_law("the expected number moves by more than the message that bears it", seen);
    }
    const bool is_answered = !seen.turn.first.empty() || seen.turn.told.first.is_kept;
    if (takes == 0 && !is_answered && !is_of_session(came)) {
        break_law("a message is counted and dropped", seen);
    }
}

void Laws::check_left(const Seen &seen, const std::string &frame) {
    const std::uint64_t number = number_of(frame);
    const bool is_again = value_of(frame, 43) == "Y";
    if (is_gap_fill(frame)) {
        if (!is_again || covers_what_is_kept(frame, seen.kept)) {
            break_law("a gap fill hides a message", seen);
        }
        return;
    }
    const auto kept = seen.kept.find(number);
    if (kept == seen.kept.end()) {
        if (is_again || !is_passing(frame)) {
            break_law("what leaves is not kept", seen);
        }
        return;
    }
    if (stripped(frame) != body_of(kept->second.frame)) {
        break_law("what leaves is not what is kept", seen);
    }
    if (!is_again) {
        if (number <= fresh_) {
            break_law("a message leaves twice as new, or out of its order", seen);
        }
        fresh_ = number;
    }
}

} // namespace sessions
