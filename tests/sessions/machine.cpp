#include "machine.h"

#include "clock.h"
#include "differ.h"
#include "library.h"
#include "texts.h"

namespace sessions {

namespace {

const std::string TODAY = DATE;

// Three frames of at most 4,096 bytes.
constexpr std::size_t MOST_OUT = 3 * 4096;
constexpr std::size_t MOST_ASKED = 5 * 1024;

// A text as the header has it: its first byte, and its length.
Bytes at(const std::string &text) {
    return reinterpret_cast<Bytes>(text.data());
}

std::uint8_t *into(std::string &text) {
    return reinterpret_cast<std::uint8_t *>(&text[0]);
}

// What every library answers: the same. `describe` says of what.
template <typename Describe, typename Ask>
auto asked_of_all(const char *call, Describe describe, Ask ask) {
    const auto said = ask(*libraries().front());
    for (const Library *library : libraries()) {
        const auto now = ask(*library);
        if (!is_same(said, now)) {
            differ(std::string(call) + " " + seen(describe()), described(said), described(now));
        }
    }
    return said;
}

// What a library says of a Logon, if it is one.
struct Answer {
    bool is_logon = false;
    Asked lengths{};
    std::string texts;
};

bool is_same(const Answer &one, const Answer &other) {
    return one.is_logon == other.is_logon && sessions::is_same(one.lengths, other.lengths) &&
           one.texts == other.texts;
}

std::string described(const Answer &answer) {
    return sessions::described(answer.is_logon) + sessions::described(answer.lengths) + " " +
           seen(answer.texts);
}

Answer answer_of(const Library &library, const std::string &bytes) {
    Answer answer;
    std::string out(MOST_ASKED, '\0');
    answer.is_logon =
        library.question(at(bytes), bytes.size(), into(out), out.size(), &answer.lengths);
    if (answer.is_logon) {
        const Asked &all = answer.lengths;
        answer.texts = out.substr(0, all.firm + all.venue + all.desk + all.username + all.password);
    }
    return answer;
}

Said said_of(bool is_done, const SessionState &state, const Told &told, const std::string &out) {
    Said said;
    said.is_done = is_done;
    said.state = state;
    if (is_done) {
        said.told = told;
        said.bytes = out.substr(0, told.first.len + told.second.len + told.kept_len);
    }
    return said;
}

} // namespace

Machine::Machine(const Names &names) : names_(names) {
    libraries().front()->begin(&state_);
    for (const Library *library : libraries()) {
        SessionState state{};
        library->begin(&state);
        if (described(state) != described(state_)) {
            differ("new", described(state_), described(state));
        }
    }
}

template <typename Call> Turn Machine::turn_of(const std::string &event, Call call) {
    const SessionState before = state_;
    Said said;
    for (const Library *library : libraries()) {
        SessionState state = before;
        Told told{};
        std::string out(MOST_OUT, '\0');
        const bool is_done = call(*library, &state, into(out), out.size(), &told);
        const Said now = said_of(is_done, state, told, out);
        if (library == libraries().front()) {
            said = now;
        } else if (!is_same(said, now)) {
            differ(seen(event) + " at " + std::to_string(moment()) +
                       "\nbefore: " + described(before),
                   described(said), described(now));
        }
    }
    state_ = said.state;
    Turn turn;
    turn.is_done = said.is_done;
    turn.told = said.told;
    turn.first = said.bytes.substr(0, said.told.first.len);
    turn.second = said.bytes.substr(said.told.first.len, said.told.second.len);
    turn.kept = said.bytes.substr(said.told.first.len + said.told.second.len);
    return turn;
}

// Whose session it is and when, as each call has it.
#define SETTING                                                                                    \
    at(names_.firm), names_.firm.size(), at(names_.venue), names_.venue.size(), at(names_.desk),   \
        names_.desk.size(), at(TODAY), TODAY.size(), moment()

Turn Machine::came(std::uint64_t connection, const std::string &bytes, bool is_known,
                   const Denial *denial) {
    const Denial none;
    const Denial &said = denial == nullptr ? none : *denial;
    const std::string event = "came " + std::to_string(connection) +
                              (is_known ? " " : " unknown ") +
                              (denial == nullptr ? "" : "denied ") + bytes;
    return turn_of(event, [&](const Library &library, SessionState *state, std::uint8_t *out,
                              std::size_t room, Told *told) {
        return library.came(state, SETTING, connection, at(bytes), bytes.size(), is_known,
                            denial != nullptr, said.reason, at(said.id), said.id.size(),
                            at(said.text), said.text.size(), out, room, told);
    });
}

Turn Machine::given(const std::string &frame) {
    return turn_of("given " + frame, [&](const Library &library, SessionState *state,
                                         std::uint8_t *out, std::size_t room, Told *told) {
        return library.given(state, SETTING, at(frame), frame.size(), out, room, told);
    });
}

Turn Machine::hands(std::uint64_t next_kept, const Kept *kept) {
    const Kept none;
    const Kept &stored = kept == nullptr ? none : *kept;
    const std::string event = "hands " + std::to_string(next_kept) + " " + stored.frame;
    return turn_of(event, [&](const Library &library, SessionState *state, std::uint8_t *out,
                              std::size_t room, Told *told) {
        return library.hands(state, SETTING, next_kept, at(stored.frame), stored.frame.size(),
                             stored.first, stored.is_copy, out, room, told);
    });
}

Turn Machine::tick() {
    return turn_of("tick", [&](const Library &library, SessionState *state, std::uint8_t *out,
                               std::size_t room, Told *told) {
        return library.tick(state, SETTING, out, room, told);
    });
}

Turn Machine::ordered(Order order, std::uint64_t copies) {
    const std::uint32_t kind = static_cast<std::uint32_t>(order);
    const std::string event = "ordered " + std::to_string(kind) + " " + std::to_string(copies);
    return turn_of(event, [&](const Library &library, SessionState *state, std::uint8_t *out,
                              std::size_t room, Told *told) {
        return library.ordered(state, SETTING, kind, copies, out, room, told);
    });
}

Turn Machine::log_out(const std::string &text) {
    return turn_of("log_out " + text, [&](const Library &library, SessionState *state,
                                          std::uint8_t *out, std::size_t room, Told *told) {
        return library.log_out(state, SETTING, at(text), text.size(), out, room, told);
    });
}

void Machine::gone(std::uint64_t connection) {
    turn_of("gone " + std::to_string(connection),
            [&](const Library &library, SessionState *state, std::uint8_t *, std::size_t, Told *) {
                library.gone(state, connection);
                return true;
            });
}

Wanted Machine::wants() const {
    return asked_of_all(
        "wants", [&] { return described(state_); },
        [&](const Library &library) {
            Wanted wanted{};
            library.wants(&state_, &wanted);
            return wanted;
        });
}

void Machine::restart() {
    const Day kept = state_.day;
    libraries().front()->begin(&state_);
    state_.day = kept;
}

FoundNext Machine::next(const std::string &stream) {
    return asked_of_all(
        "next", [&] { return stream; },
        [&](const Library &library) {
            FoundNext found{};
            library.next(at(stream), stream.size(), &found);
            return found;
        });
}

Question Machine::question(const std::string &bytes) {
    const Answer answer = asked_of_all(
        "question", [&] { return bytes; },
        [&](const Library &library) { return answer_of(library, bytes); });
    Question question;
    std::size_t place = 0;
    const auto taken = [&](std::size_t len) {
        place += len;
        return answer.texts.substr(place - len, len);
    };
    question.firm = taken(answer.lengths.firm);
    question.venue = taken(answer.lengths.venue);
    question.desk = taken(answer.lengths.desk);
    question.username = taken(answer.lengths.username);
    question.password = taken(answer.lengths.password);
    return question;
}

bool Machine::is_logout(const std::string &bytes) {
    return asked_of_all(
        "is_logout", [&] { return bytes; },
        [&](const Library &library) { return library.is_logout(at(bytes), bytes.size()); });
}

bool Machine::is_first_late(std::uint32_t since) {
    return asked_of_all(
        "is_first_late", [&] { return std::to_string(since); },
        [&](const Library &library) {
            return library.is_first_late(since, at(TODAY), TODAY.size(), moment());
        });
}

bool Machine::is_parting_over(std::uint32_t since) {
    return asked_of_all(
        "is_parting_over", [&] { return std::to_string(since); },
        [&](const Library &library) {
            return library.is_parting_over(since, at(TODAY), TODAY.size(), moment());
        });
}

} // namespace sessions
