#include "differ.h"

#include "texts.h"

#include <algorithm>
#include <stdexcept>

namespace sessions {

namespace {

// Each number and mark of a struct, with its name.
template <typename See> void see_each(const Day &day, See &see) {
    see("expected", day.expected);
    see("next", day.next);
    see("had", day.had);
    see("first_given", day.first_given);
    see("last_given", day.last_given);
    see("last_kept", day.last_kept);
    see("is_one_free", day.is_one_free);
    see("was_taken", day.was_taken);
    see("is_reset", day.is_reset);
    see("reset_at", day.reset_at);
    see("is_locked", day.is_locked);
    see("last_logon", day.last_logon);
    see("is_open", day.is_open);
    see("is_suspended", day.is_suspended);
}

template <typename See> void see_each(const Line &line, See &see) {
    see("line.connection", line.connection);
    see("heartbeat", line.heartbeat);
    see("received", line.received);
    see("sent", line.sent);
    see("gap", line.gap);
    see("gap_since", line.gap_since);
    see("again", line.again);
    see("again_end", line.again_end);
    see("fresh", line.fresh);
    see("split", line.split);
    see("first_test", line.first_test);
    see("last_test", line.last_test);
    see("test_since", line.test_since);
    see("overtook", line.overtook);
    see("settling_since", line.settling_since);
    see("is_settled", line.is_settled);
    see("is_held", line.is_held);
    see("is_asked", line.is_asked);
    see("is_test_due", line.is_test_due);
    see("is_request_due", line.is_request_due);
}

template <typename See> void see_each(const SessionState &state, See &see) {
    see_each(state.day, see);
    see("phase", state.phase);
    see_each(state.line, see);
    see("connection", state.connection);
    see("since", state.since);
    see("waits", state.waits);
    see("waiting.connection", state.waiting.connection);
    see("waiting.since", state.waiting.since);
    see("waiting.is_alive", state.waiting.is_alive);
}

template <typename See> void see_each(const Told &told, See &see) {
    // A connection is told where something leaves on it or it ends.
    const bool is_of_one = told.first.len > 0 || told.second.len > 0 || told.ending != 0;
    see("told.connection", is_of_one ? told.connection : 0);
    see("first.number", told.first.number);
    see("first.len", told.first.len);
    see("first.is_kept", told.first.is_kept);
    see("second.number", told.second.number);
    see("second.len", told.second.len);
    see("second.is_kept", told.second.is_kept);
    see("kept_len", told.kept_len);
    see("takes", told.takes);
    see("drops_rejects", told.drops_rejects);
    see("ending", told.ending);
    see("notice", told.notice);
}

template <typename See> void see_each(const FoundNext &found, See &see) {
    see("skip", found.skip);
    see("kind", found.kind);
    see("len", found.len);
}

template <typename See> void see_each(const Asked &asked, See &see) {
    see("firm", asked.firm);
    see("venue", asked.venue);
    see("desk", asked.desk);
    see("username", asked.username);
    see("password", asked.password);
}

template <typename See> void see_each(const Wanted &wanted, See &see) {
    see("kind", wanted.kind);
    see("number", wanted.number);
}

class Values {
  public:
    void operator()(const char *, std::uint64_t value) { values_[count_++] = value; }
    bool operator==(const Values &other) const {
        return count_ == other.count_ && std::equal(values_, values_ + count_, other.values_);
    }

  private:
    std::uint64_t values_[64]{};
    std::size_t count_ = 0;
};

class Words {
  public:
    void operator()(const char *name, std::uint64_t value) {
        text += std::string(" ") + name + "=" + std::to_string(value);
    }
    std::string text;
};

template <typename What> bool has_same_values(const What &one, const What &other) {
    Values of_one;
    Values of_other;
    see_each(one, of_one);
    see_each(other, of_other);
    return of_one == of_other;
}

template <typename What> std::string words_of(const What &what) {
    Words words;
    see_each(what, words);
    return words.text;
}

} // namespace

bool is_same(const Said &one, const Said &other) {
    return one.is_done == other.is_done && has_same_values(one.state, other.state) &&
           has_same_values(one.told, other.told) && one.bytes == other.bytes;
}

bool is_same(const FoundNext &one, const FoundNext &other) {
    return has_same_values(one, other);
}

bool is_same(const Asked &one, const Asked &other) {
    return has_same_values(one, other);
}

bool is_same(const Wanted &one, const Wanted &other) {
    return has_same_values(one, other);
}

std::string described(const Said &said) {
    return (said.is_done ? "done:" : "not done:") + words_of(said.told) + "\n  " +
           words_of(said.state) + "\n  " + seen(said.bytes);
}

std::string described(const FoundNext &found) {
    return words_of(found);
}

std::string described(const Asked &asked) {
    return words_of(asked);
}

std::string described(const Wanted &wanted) {
    return words_of(wanted);
}

std::string described(const SessionState &state) {
    return words_of(state);
}

void differ(const std::string &call, const std::string &one, const std::string &other) {
    throw std::runtime_error("the libraries differ: " + call + "\nfirst:  " + one +
                             "\nsecond: " + other);
}

} // namespace sessions
