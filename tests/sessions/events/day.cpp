#include "day.h"

#include "../differ.h"
#include "../library.h"
#include "../texts.h"

#include <algorithm>

namespace sessions {

namespace {

constexpr int STEPS = 600;
constexpr Millis DAY_LENGTH = 86400000;
constexpr std::uint64_t PAST_THE_LAST = 999999999;
constexpr unsigned CONNECTIONS = 3;

enum Wants : std::uint32_t { NOTHING, AGAIN, FRESH, TICK, LOGON };

Names names_of(Draw &draw) {
    Names names;
    if (draw.often(30)) {
        names.desk = "B1";
    }
    return names;
}

bool is_answer(const std::string &frame) {
    const std::string type = value_of(frame, 35);
    return type == "3" || type == "j";
}

Bytes at(const std::string &text) {
    return reinterpret_cast<Bytes>(text.data());
}

// A frame as a library makes it, or what it says instead.
struct Translated {
    bool is_done = false;
    std::string bytes;
};

bool is_same(const Translated &one, const Translated &other) {
    return one.is_done == other.is_done && one.bytes == other.bytes;
}

template <typename Translate>
void translate_by_all(const char *call, const std::string &bytes, Translate translate) {
    Translated said;
    for (const Library *library : libraries()) {
        std::string out(8192, '\0');
        std::size_t written = 0;
        Translated now;
        now.is_done =
            translate(*library, reinterpret_cast<std::uint8_t *>(&out[0]), out.size(), &written);
        now.bytes = now.is_done ? out.substr(0, written) : std::string();
        if (library != libraries().front() && !is_same(said, now)) {
            differ(std::string(call) + " " + seen(bytes), seen(said.bytes), seen(now.bytes));
        }
        said = now;
    }
}

// A message as the venue's program writes it.
std::string venue_frame(Draw &draw, unsigned number) {
    const std::string type = draw.one_of<const char *>({"S", "AI", "R", "3", "AJ", "AG"});
    std::string body = field(35, type) + field(49, "VENUE") + field(56, "DLR1") +
                       field(34, std::to_string(number)) + field(52, "20250314-09:00:00.123");
    for (unsigned i = 0; i < draw.below(6); ++i) {
        const int tag = draw.one_of({45, 537, 297, 453, 58, 1003, 117, 448, 371, 60, 1181});
        body += field(tag, draw.one_of<const char *>({"1", "x", "", "17"}));
    }
    if (draw.often(3)) {
        body += field(5000, std::string(3600 + draw.below(300), 'x'));
    }
    return framed(body);
}

} // namespace

EventDay::EventDay(std::uint32_t seed)
    : draw_(seed * 2654435761U + 1), names_(names_of(draw_)), machine_(names_) {}

Scene EventDay::scene() const {
    return {machine_.state(), names_, moment()};
}

void EventDay::run() {
    set_now(MIDNIGHT + draw_.one_of<Millis>({0, 32400000, DAY_LENGTH - 300000}));
    if (draw_.often(90)) {
        act(machine_.ordered(Machine::Order::Open), true);
    }
    for (int i = 0; i < STEPS; ++i) {
        step();
    }
}

void EventDay::step() {
    ++counts_.events;
    pass_time();
    const unsigned what = draw_.below(100);
    if (what < 45) {
        come();
    } else if (what < 60) {
        std::string frame = drawn_given(draw_);
        act(machine_.given(frame), false);
    } else if (what < 80) {
        flow();
    } else if (what < 88) {
        act(machine_.tick(), true);
    } else if (what < 93) {
        disturb();
    } else if (what < 98) {
        ask_about_bytes();
    } else {
        translate();
    }
}

// What ends connections, or what no caller does.
void EventDay::disturb() {
    switch (draw_.below(draw_.ill(80) ? 8 : 1)) {
    case 0:
        act(machine_.tick(), true);
        break;
    case 1:
    case 2:
    case 3:
        end_something();
        break;
    case 4:
    case 5:
        order();
        break;
    case 6:
        hand_anything();
        break;
    default:
        spoil_state();
    }
}

void EventDay::pass_time() {
    const Millis most = !draw_.ill(15) ? 500 : draw_.one_of<Millis>({1, 2500, 11000, 70000});
    const Millis then = now() + draw_.below(static_cast<unsigned>(most));
    const Millis limit = draw_.ill(10) ? drawn_limit() : 0;
    set_now(std::min(limit > now() ? limit : then, MIDNIGHT + DAY_LENGTH - 1));
}

// The end of one of the session's waits, or a millisecond before or behind it.
Millis EventDay::drawn_limit() {
    const SessionState &state = machine_.state();
    const Line &line = state.line;
    const std::uint64_t end = draw_.one_of<std::uint64_t>(
        {line.gap_since + 10000, line.test_since + 10000, line.settling_since + 60000,
         line.received + 6000, line.received + line.heartbeat * 6 / 5,
         line.received + line.heartbeat * 12 / 5, line.sent + line.heartbeat,
         state.waiting.since + 2000, state.since + 2000});
    return MIDNIGHT + static_cast<Millis>(end) + draw_.below(3) - 1;
}

void EventDay::come() {
    const SessionState &state = machine_.state();
    const bool is_on = state.phase == 1;
    const std::uint64_t has_it = is_on ? state.line.connection : state.connection;
    const std::uint64_t connection = is_on && !draw_.ill(8) ? has_it : 1 + draw_.below(CONNECTIONS);
    const bool is_first = state.phase == 0 || connection != has_it;
    come_on(connection, is_first && draw_.often(95) ? drawn_logon(draw_, scene())
                                                    : drawn_message(draw_, scene()));
}

void EventDay::come_on(std::uint64_t connection, const std::string &bytes) {
    Denial denial;
    denial.reason = draw_.below(10);
    denial.id = draw_.one_of<std::string>({"", "q1", "q1", std::string(201, 'i'), "a\x01"});
    denial.text = draw_.one_of<std::string>(
        {"no", "no", std::string(200, 't'), std::string(201, 't'), "", "a\x01"});
    logons_[connection] = bytes;
    const std::uint32_t phase = machine_.state().phase;
    act(machine_.came(connection, bytes, !draw_.ill(3), draw_.ill(15) ? &denial : nullptr), true);
    counts_.logons += phase != 1 && machine_.state().phase == 1;
}

void EventDay::flow() {
    for (unsigned i = 0; i < 1 + draw_.below(12); ++i) {
        const Wanted wanted = machine_.wants();
        if (wanted.kind == NOTHING) {
            return;
        }
        if (wanted.kind == TICK) {
            act(machine_.tick(), true);
        } else if (wanted.kind == LOGON) {
            come_on(wanted.number, logons_[wanted.number]);
        } else {
            hand(wanted.number);
        }
    }
}

void EventDay::hand(std::uint64_t number) {
    const auto at = kept_.lower_bound(number);
    const bool is_there = at != kept_.end() && at->first == number;
    const auto next = is_there ? std::next(at) : at;
    const std::uint64_t next_kept = next == kept_.end() ? PAST_THE_LAST : next->first;
    act(machine_.hands(next_kept, is_there ? &at->second : nullptr), true);
}

// What no caller does: something else than what was asked for, or without being asked.
void EventDay::hand_anything() {
    Kept kept;
    kept.frame = drawn_given(draw_);
    kept.first = draw_.often(95) ? moment() : static_cast<std::uint32_t>(DAY_LENGTH);
    kept.is_copy = draw_.often(20);
    const std::uint64_t next =
        draw_.often(80) ? machine_.state().line.again + draw_.below(5) : draw_.below(3);
    act(machine_.hands(next, draw_.often(50) ? &kept : nullptr), true);
}

void EventDay::order() {
    const Machine::Order order =
        draw_.one_of({Machine::Order::Open, Machine::Order::Open, Machine::Order::Resume,
                      Machine::Order::Resume, Machine::Order::Release, Machine::Order::Release,
                      Machine::Order::Close, Machine::Order::Suspend, Machine::Order::Reset});
    std::uint64_t copies = 0;
    if (order == Machine::Order::Reset) {
        std::map<std::uint64_t, Kept> left;
        for (const auto &kept : kept_) {
            if (kept.first > machine_.state().day.had && !kept.second.is_own) {
                Kept copy = kept.second;
                copy.is_copy = true;
                left[2 + left.size()] = copy;
            }
        }
        kept_.swap(left);
        copies = draw_.often(95) ? kept_.size() : draw_.one_of<std::uint64_t>({1, 999999990});
    }
    act(machine_.ordered(order, copies), true);
}

void EventDay::end_something() {
    switch (draw_.below(6)) {
    case 0:
        machine_.restart();
        break;
    case 1:
        act(machine_.log_out(draw_.one_of<std::string>(
                {"the gateway stops", "", std::string(200, 'x'), std::string(201, 'x'), "a\x01"})),
            true);
        break;
    case 2:
        machine_.gone(machine_.state().line.connection);
        break;
    default:
        machine_.gone(draw_.below(CONNECTIONS + 1));
    }
}

void EventDay::ask_about_bytes() {
    const std::string stream = drawn_stream(draw_, scene());
    Machine::next(stream);
    const std::string first = drawn_logon(draw_, scene());
    Machine::question(first);
    Machine::is_logout(first);
    Machine::is_logout(drawn_message(draw_, scene()));
    const Millis since =
        std::max<Millis>(0, moment() - draw_.one_of<Millis>({1999, 2000, 9999, 10000, -5}));
    Machine::is_first_late(static_cast<std::uint32_t>(since));
    Machine::is_parting_over(static_cast<std::uint32_t>(since));
}

void EventDay::translate() {
    const unsigned number = 1 + draw_.below(100);
    const std::string given = draw_.often(90) ? venue_frame(draw_, number) : drawn_given(draw_);
    const std::uint32_t said = draw_.often(95) ? number : number + 1;
    const std::uint64_t ref = draw_.below(3);
    const std::uint32_t tag = draw_.one_of({0U, 58U, 1003U, 59U});
    const std::string told = draw_.one_of<const char *>({"why", "", "a\x01", "T-1"});
    translate_by_all(
        "wire_out", given,
        [&](const Library &library, std::uint8_t *out, std::size_t room, std::size_t *written) {
            return library.wire_out(at(given), given.size(), said, ref, tag, at(told), told.size(),
                                    out, room, written);
        });
    const std::string came = drawn_message(draw_, scene());
    translate_by_all(
        "wire_in", came,
        [&](const Library &library, std::uint8_t *out, std::size_t room, std::size_t *written) {
            return library.wire_in(at(came), came.size(), number, out, room, written);
        });
}

// The day's numbers come near their end, or are beyond it.
void EventDay::spoil_state() {
    SessionState state = machine_.state();
    const std::uint64_t near = 999999988 + draw_.below(5);
    if (draw_.often(50)) {
        state.day.expected = near;
    } else {
        state.day.next = near;
        state.line.fresh = state.phase == 1 ? near : 0;
    }
    machine_.adopt(state);
}

void EventDay::act(const Turn &turn, bool is_own) {
    if (!turn.is_done) {
        return;
    }
    const Told &told = turn.told;
    counts_.taken += told.takes != 0;
    counts_.sent += told.first.len > 0;
    counts_.resent += value_of(turn.first, 43) == "Y";
    counts_.settled += machine_.state().line.is_settled;
    if (told.drops_rejects) {
        for (auto at = kept_.begin(); at != kept_.end();) {
            const bool drops = at->second.is_own && is_answer(at->second.frame);
            at = drops ? kept_.erase(at) : std::next(at);
        }
    }
    if (told.first.is_kept) {
        counts_.rejected += is_own;
        Kept kept;
        kept.frame = turn.kept;
        kept.first = moment();
        kept.is_own = is_own;
        kept_[told.first.number] = kept;
    }
    if (told.ending == 1) {
        machine_.gone(told.connection);
    }
}

} // namespace sessions
