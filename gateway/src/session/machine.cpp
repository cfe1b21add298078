#include "session/machine.h"

#include "session/own_fields.h"
#include "session/session_names.h"

#include <stdexcept>
#include <utility>

namespace gateway {

namespace {

// The longest texts that a question copies are five of 1,024 bytes.
constexpr std::size_t most_asked = std::size_t{5} * 1024;

Bytes at(std::string_view text) {
    // An empty text has a place, too.
    return reinterpret_cast<Bytes>(text.data() == nullptr ? "" : text.data());
}

::Day day_of(const SessionNumbers &numbers) {
    ::Day day{};
    day.expected = numbers.expected;
    day.next = numbers.next;
    day.had = numbers.had;
    day.first_given = numbers.first_given;
    day.last_given = numbers.last_given;
    day.last_kept = numbers.last_kept;
    day.is_one_free = numbers.is_one_free;
    day.was_taken = numbers.was_taken;
    day.is_reset = numbers.is_reset;
    day.reset_at = numbers.reset_at;
    day.is_locked = numbers.is_locked;
    day.last_logon = numbers.last_logon;
    day.is_suspended = numbers.is_suspended;
    return day;
}

SessionNumbers numbers_of(const ::Day &day) {
    SessionNumbers numbers;
    numbers.expected = static_cast<std::uint32_t>(day.expected);
    numbers.next = static_cast<std::uint32_t>(day.next);
    numbers.had = static_cast<std::uint32_t>(day.had);
    numbers.first_given = static_cast<std::uint32_t>(day.first_given);
    numbers.last_given = static_cast<std::uint32_t>(day.last_given);
    numbers.last_kept = static_cast<std::uint32_t>(day.last_kept);
    numbers.is_one_free = day.is_one_free;
    numbers.was_taken = day.was_taken;
    numbers.is_reset = day.is_reset;
    numbers.reset_at = day.reset_at;
    numbers.is_locked = day.is_locked;
    numbers.last_logon = day.last_logon;
    numbers.is_suspended = day.is_suspended;
    return numbers;
}

// Text (58) of bytes that the machine has made.
std::string text_in(std::string_view frames) {
    return std::string(own_fields::value_in(frames, own_fields::text));
}

} // namespace

Machine::Machine(SessionNames names, const std::optional<SessionNumbers> &kept)
    : names_(std::move(names)) {
    fix_sessions_new(&state_);
    if (kept) {
        begin_with(*kept);
    }
}

void Machine::begin_with(const SessionNumbers &numbers) {
    fix_sessions_new(&state_);
    state_.day = day_of(numbers);
}

bool Machine::has(const SessionState &state, std::uint64_t connection) {
    return (state.phase == phase_on && state.line.connection == connection) ||
           (state.phase == phase_leaving && state.connection == connection);
}

SessionNumbers Machine::numbers() const {
    return numbers_of(state_.day);
}

SessionNumbers Machine::next_numbers() const {
    return numbers_of(next_.day);
}

Wanted Machine::wants() const {
    Wanted wanted{};
    fix_sessions_wants(&state_, &wanted);
    return wanted;
}

// A call of an event: each has the session, whose it is and the moment in front, and what it tells
// behind.
template <typename Call, typename... Rest>
bool Machine::call(Call call, SessionState &state, Told &told, std::uint32_t moment, Rest... rest) {
    return call(&state, at(names_.firm), names_.firm.size(), at(venue_name), venue_name.size(),
                at(names_.desk), names_.desk.size(), at(names_.date), names_.date.size(), moment,
                rest..., out_.data(), out_.size(), &told);
}

const MachineTurn &Machine::take(bool is_done, const char *event) {
    if (!is_done) {
        // What it has left there is gone with the next event, which begins with the state.
        throw std::runtime_error(names_.firm + ": the session did nothing at " + event);
    }
    const std::string_view out(reinterpret_cast<const char *>(out_.data()), out_.size());
    turn_.first = out.substr(0, turn_.told.first.len);
    turn_.second = out.substr(turn_.told.first.len, turn_.told.second.len);
    turn_.kept = out.substr(turn_.told.first.len + turn_.told.second.len, turn_.told.kept_len);
    return turn_;
}

const MachineTurn &Machine::came(std::uint32_t moment, std::uint64_t connection,
                                 std::string_view bytes, bool is_known, const Denial *denial) {
    begin();
    const std::uint64_t reason = denial == nullptr ? 0 : denial->reason;
    const std::string_view id = denial == nullptr ? std::string_view() : denial->id;
    const std::string_view text = denial == nullptr ? std::string_view() : denial->text;
    return take(call(fix_sessions_came, next_, turn_.told, moment, connection, at(bytes),
                     bytes.size(), is_known, denial != nullptr, reason, at(id), id.size(), at(text),
                     text.size()),
                "a message");
}

const MachineTurn &Machine::given(std::uint32_t moment, std::string_view frame) {
    begin();
    return take(call(fix_sessions_given, next_, turn_.told, moment, at(frame), frame.size()),
                "a message of the venue");
}

const MachineTurn &Machine::hands(std::uint32_t moment, std::uint64_t next_kept,
                                  std::string_view frame, std::uint32_t first, bool is_copy) {
    begin();
    return take(call(fix_sessions_hands, next_, turn_.told, moment, next_kept, at(frame),
                     frame.size(), first, is_copy),
                "what is kept");
}

const MachineTurn &Machine::tick(std::uint32_t moment) {
    begin();
    return take(call(fix_sessions_tick, next_, turn_.told, moment), "a tick");
}

const MachineTurn &Machine::ordered(std::uint32_t moment, Order order, std::uint64_t copies) {
    begin();
    return take(call(fix_sessions_ordered, next_, turn_.told, moment,
                     static_cast<std::uint32_t>(order), copies),
                "an order");
}

const MachineTurn &Machine::log_out(std::uint32_t moment, std::string_view text) {
    begin();
    return take(call(fix_sessions_log_out, next_, turn_.told, moment, at(text), text.size()),
                "a Logout");
}

const MachineTurn &Machine::gone(std::uint64_t connection) {
    begin();
    fix_sessions_gone(&next_, connection);
    turn_ = MachineTurn{};
    turn_.told.connection = connection;
    return turn_;
}

std::string Machine::unsaid(std::uint32_t moment, std::uint64_t connection,
                            std::string_view message) {
    // The same at a session for which nothing waits, and that has answered: there a Logout says
    // why.
    SessionState clear = state_;
    clear.line.is_settled = true;
    clear.line.is_held = false;
    clear.line.fresh = clear.day.next;
    clear.line.again = clear.line.again_end;
    // What the event itself says stands there.
    const auto said = out_;
    Told told{};
    const bool is_done =
        message.empty()
            ? call(fix_sessions_tick, clear, told, moment)
            : call(fix_sessions_came, clear, told, moment, connection, at(message), message.size(),
                   false, false, std::uint64_t{0}, at(""), std::size_t{0}, at(""), std::size_t{0});
    const std::string_view out(reinterpret_cast<const char *>(out_.data()), out_.size());
    std::string text;
    if (is_done) {
        text = text_in(out.substr(0, told.first.len + told.second.len));
    }
    out_ = said;
    return text;
}

std::string Machine::why_refused(std::uint32_t moment, std::uint64_t connection,
                                 std::string_view bytes) {
    // The same Logon at a session that owes the firm nothing: there a refusal says why.
    SessionState owes_nothing = state_;
    owes_nothing.day.last_kept = 0;
    Told told{};
    if (!call(fix_sessions_came, owes_nothing, told, moment, connection, at(bytes), bytes.size(),
              true, false, std::uint64_t{0}, at(""), std::size_t{0}, at(""), std::size_t{0})) {
        return {};
    }
    return text_in({reinterpret_cast<const char *>(out_.data()), told.first.len});
}

FoundMessage next_message(std::string_view stream) {
    FoundNext found{};
    fix_sessions_next(at(stream), stream.size(), &found);
    constexpr std::size_t first_of_endless = 65536;
    switch (found.kind) {
    case 1:
        return {found.skip, FoundMessage::Kind::message, found.len};
    case 2:
        return {found.skip, FoundMessage::Kind::too_long, first_of_endless};
    default:
        return {found.skip, FoundMessage::Kind::none, 0};
    }
}

std::optional<LogonQuestion> question_of(std::string_view bytes) {
    std::string out(most_asked, '\0');
    Asked lengths{};
    if (!fix_sessions_question(at(bytes), bytes.size(),
                               reinterpret_cast<std::uint8_t *>(out.data()), out.size(),
                               &lengths)) {
        return std::nullopt;
    }
    std::size_t begin = 0;
    const auto take = [&](std::size_t length) {
        return out.substr(std::exchange(begin, begin + length), length);
    };
    LogonQuestion question;
    question.firm = take(lengths.firm);
    question.venue = take(lengths.venue);
    question.desk = take(lengths.desk);
    question.username = take(lengths.username);
    question.password = take(lengths.password);
    return question;
}

bool is_logout(std::string_view bytes) {
    return fix_sessions_is_logout(at(bytes), bytes.size());
}

bool is_parting_over(const std::string &date, std::uint32_t since, std::uint32_t moment) {
    return fix_sessions_is_parting_over(since, at(date), date.size(), moment);
}

} // namespace gateway
