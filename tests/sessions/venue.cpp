#include "venue.h"

#include "clock.h"
#include "texts.h"

#include <stdexcept>
#include <vector>

namespace sessions {

namespace {

constexpr std::uint64_t PAST_THE_LAST = 999999999;
constexpr std::uint64_t FIRST_COPY = 2;
constexpr std::size_t MOST_MESSAGE = 65536;

enum Wants : std::uint32_t { NOTHING, AGAIN, FRESH, TICK, LOGON };
enum Kind : std::uint32_t { NO_MESSAGE, MESSAGE, TOO_LONG };
enum Ending : std::uint32_t { STANDS, ENDS, PARTS };

// A Reject, or a message that was not taken.
bool is_reject(const std::string &frame) {
    const std::string type = value_of(frame, 35);
    return type == "3" || type == "j";
}

constexpr std::uint64_t NOT_AVAILABLE = 4;

const char *notice_of(std::uint32_t notice) {
    static const char *const texts[] = {"",
                                        "wrong credentials",
                                        "a Logon is refused",
                                        "the engine has lost its store",
                                        "the firm rejects",
                                        "the old connection is dead"};
    return texts[notice];
}

} // namespace

void Venue::opened(int connection) {
    Connection begun;
    begun.since = moment();
    connections_[connection] = begun;
}

void Venue::gone(int connection) {
    if (connections_.erase(connection) > 0) {
        forget(connection);
        admit();
    }
}

void Venue::bytes(int connection, const std::string &bytes) {
    const auto at = connections_.find(connection);
    if (at != connections_.end()) {
        at->second.stream += bytes;
        drain(connection);
    }
}

bool Venue::waits(int connection) const {
    const SessionState &state = machine_.state();
    return state.waits && state.waiting.connection == static_cast<std::uint64_t>(connection);
}

void Venue::drain(int connection) {
    for (;;) {
        const auto at = connections_.find(connection);
        if (at == connections_.end() || waits(connection)) {
            return;
        }
        Connection &line = at->second;
        const FoundNext found = Machine::next(line.stream);
        line.stream.erase(0, found.skip);
        if (found.skip > 0 && !line.has_spoken) {
            end(connection); // row 1: what begins no message is no Logon
            return;
        }
        if (found.kind == NO_MESSAGE) {
            return;
        }
        const std::size_t len = found.kind == TOO_LONG ? MOST_MESSAGE : found.len;
        const std::string message = line.stream.substr(0, len);
        line.stream.erase(0, len);
        this->message(connection, message);
    }
}

void Venue::message(int connection, const std::string &bytes) {
    Connection &line = connections_[connection];
    if (line.parts) {
        if (Machine::is_logout(bytes)) {
            end(connection);
        }
        return;
    }
    if (!line.has_spoken) {
        line.has_spoken = true;
        line.logon = bytes;
        line.is_known = carrier_.knows(Machine::question(bytes));
    }
    came(connection, bytes, line.is_known);
    admit();
}

bool Venue::has_the_session(int connection) const {
    const SessionState &state = machine_.state();
    return state.phase == 1 && state.line.connection == static_cast<std::uint64_t>(connection);
}

void Venue::came(int connection, const std::string &bytes, bool is_known) {
    const SessionState before = machine_.state();
    const bool had_the_session = has_the_session(connection);
    const auto named = static_cast<std::uint64_t>(connection);
    Turn turn = machine_.came(named, bytes, is_known, nullptr);
    if (turn.told.takes != 0 && !carrier_.takes(bytes)) {
        const Denial denial{NOT_AVAILABLE, value_of(bytes, 117), "not now"};
        machine_.adopt(before);
        turn = machine_.came(named, bytes, is_known, &denial);
    }
    if (!had_the_session && has_the_session(connection)) {
        carrier_.accepted(connection);
    }
    if (turn.told.takes != 0) {
        carrier_.taken(bytes);
    }
    if (turn.told.first.is_kept && is_reject(turn.kept)) {
        carrier_.rejected(bytes, machine_.state().day.expected == before.day.expected + 1);
    }
    const Came came{connection, bytes, is_known};
    act(turn, true, &came);
}

void Venue::admit() {
    for (Wanted wanted = machine_.wants(); wanted.kind == LOGON; wanted = machine_.wants()) {
        const int connection = static_cast<int>(wanted.number);
        const Connection waiting = connections_[connection];
        came(connection, waiting.logon, waiting.is_known);
        drain(connection);
    }
}

void Venue::forget(int connection) {
    machine_.gone(static_cast<std::uint64_t>(connection));
    before_ = machine_.state();
}

void Venue::act(const Turn &turn, bool is_own, const Came *came) {
    if (!turn.is_done) {
        throw std::runtime_error("a call of the session did nothing");
    }
    if (turn.told.notice != 0) {
        carrier_.note(notice_of(turn.told.notice));
    }
    if (turn.told.drops_rejects) {
        drop_rejects();
    }
    keep(turn, is_own);
    carrier_.saw({before_, machine_.state(), turn, came, kept_});
    before_ = machine_.state();
    const int connection = static_cast<int>(turn.told.connection);
    if (!turn.first.empty()) {
        carrier_.send(connection, turn.first);
    }
    if (!turn.second.empty()) {
        carrier_.send(connection, turn.second);
    }
    if (turn.told.ending == ENDS) {
        end(connection);
    } else if (turn.told.ending == PARTS) {
        connections_[connection].parts = true;
        connections_[connection].since = moment();
    }
}

void Venue::keep(const Turn &turn, bool is_own) {
    if (!turn.told.first.is_kept) {
        return;
    }
    Kept kept;
    kept.frame = turn.kept;
    kept.first = moment();
    kept.is_own = is_own;
    kept_[turn.told.first.number] = kept;
}

void Venue::drop_rejects() {
    for (auto at = kept_.begin(); at != kept_.end();) {
        at = at->second.is_own && is_reject(at->second.frame) ? kept_.erase(at) : std::next(at);
    }
    carrier_.rejects_dropped();
}

void Venue::end(int connection) {
    if (connections_.erase(connection) > 0) {
        forget(connection);
        carrier_.close(connection);
    }
}

void Venue::give(const std::string &body) {
    act(machine_.given(framed(body)), false);
}

bool Venue::flow() {
    const Wanted wanted = machine_.wants();
    if (wanted.kind == NOTHING || wanted.kind == LOGON) {
        return false;
    }
    if (wanted.kind == TICK) {
        act(machine_.tick(), true);
    } else {
        const auto at = kept_.lower_bound(wanted.number);
        const bool is_there = at != kept_.end() && at->first == wanted.number;
        const auto next = is_there ? std::next(at) : at;
        const std::uint64_t next_kept = next == kept_.end() ? PAST_THE_LAST : next->first;
        act(machine_.hands(next_kept, is_there ? &at->second : nullptr), true);
    }
    admit();
    return true;
}

void Venue::tick() {
    act(machine_.tick(), true);
    std::vector<int> over;
    for (const auto &line : connections_) {
        const bool is_late = !line.second.has_spoken && Machine::is_first_late(line.second.since);
        if (is_late || (line.second.parts && Machine::is_parting_over(line.second.since))) {
            over.push_back(line.first);
        }
    }
    for (const int connection : over) {
        end(connection);
    }
    admit();
}

void Venue::restart() {
    connections_.clear();
    machine_.restart();
    before_ = machine_.state();
}

void Venue::open() {
    act(machine_.ordered(Machine::Order::Open), true);
}

void Venue::suspend() {
    act(machine_.ordered(Machine::Order::Suspend), true);
}

void Venue::resume() {
    act(machine_.ordered(Machine::Order::Resume), true);
}

void Venue::log_out() {
    act(machine_.log_out("held too long"), true);
    admit();
}

void Venue::reset() {
    std::map<std::uint64_t, Kept> copies;
    for (const auto &kept : kept_) {
        if (kept.first > machine_.state().day.had && !kept.second.is_own) {
            Kept copy = kept.second;
            copy.is_copy = true;
            copies[FIRST_COPY + copies.size()] = copy;
        }
    }
    kept_.swap(copies);
    act(machine_.ordered(Machine::Order::Reset, kept_.size()), true);
    admit();
}

std::uint64_t Venue::use_number() {
    SessionState state = machine_.state();
    const std::uint64_t number = state.day.is_one_free ? 1 : state.day.next++;
    state.day.is_one_free = false;
    machine_.adopt(state);
    before_ = state;
    return number;
}

bool Venue::is_idle() const {
    const SessionState &state = machine_.state();
    return is_settled() && state.line.again >= state.line.again_end &&
           state.line.fresh == state.day.next;
}

} // namespace sessions
