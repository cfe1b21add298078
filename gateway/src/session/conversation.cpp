#include "session/conversation.h"

#include "session/refusal_words.h"
#include "session/transport.h"

#include <utility>

namespace gateway {

namespace {

// So many bytes may wait for the end of a first message: a Logon that can be accepted is shorter.
constexpr std::size_t most_before_logon = std::size_t{2} * 4096;

// What was taken is dropped when it is so much, and not with each message.
constexpr std::size_t most_taken = 65536;

// A message may come in so many reads. Each read is work, however few bytes it brings.
constexpr int reads_of_a_message = 8;

// What a firm is told that is logged out for it.
constexpr const char *held_too_long =
    "more messages or bytes than the rate of a firm allows, for five seconds";

} // namespace

Conversation::Conversation(const Sessions &sessions, EngineEvents &events, Transport &transport)
    : transport_(transport), events_(events), door_(sessions, events, transport) {}

bool Conversation::hear(const char *bytes, std::size_t count, Received at) {
    stream_.append(bytes, count);
    at_ = at;
    const bool has_taken = go_on();
    unended_ = has_taken ? 0 : unended_ + 1;
    if (unended_ == reads_of_a_message) {
        unended_ = 0;
        ++pieces_;
    }
    return has_taken;
}

void Conversation::look_again() {
    logon_was_judged(door_.look_again());
    go_on();
}

std::chrono::steady_clock::time_point Conversation::may_hear_from(std::size_t bytes) {
    const std::size_t pieces = std::exchange(pieces_, 0);
    FirmSession *const session = door_.session();
    return session == nullptr ? std::chrono::steady_clock::time_point()
                              : session->host().was_read(session->firm(), pieces, bytes);
}

void Conversation::serve(Received now) {
    if (is_known() && (!work_.has_more || std::chrono::steady_clock::now() >= work_.from)) {
        work_ = door_.session()->serve(door_.connection(), now);
    }
}

std::optional<std::chrono::steady_clock::time_point> Conversation::serves_from() const {
    return work_.has_more ? std::optional(work_.from) : std::nullopt;
}

void Conversation::is_held_too_long() {
    log_out(held_too_long);
}

void Conversation::log_out(const char *reason) {
    if (is_admitted()) {
        door_.session()->log_out(reason);
    }
}

void Conversation::tick(Received now) {
    if (is_known()) {
        door_.session()->tick(door_.connection(), now);
    }
}

bool Conversation::may_go_on() const {
    return !waits_ && !transport_.is_ending() && (is_first_ || is_known());
}

// What follows a Logon in the same bytes is not looked at before the Logon has been answered.
// Whether a message was taken.
bool Conversation::go_on() {
    bool has_taken = false;
    while (may_go_on()) {
        const FoundMessage found = next_message(std::string_view(stream_).substr(begin_));
        if (found.skip > 0) {
            skip(found.skip);
            continue;
        }
        if (found.kind == FoundMessage::Kind::none) {
            break;
        }
        is_astray_ = false;
        ++pieces_;
        const std::string_view message = std::string_view(stream_).substr(begin_, found.length);
        begin_ += found.length;
        has_taken = true;
        take(message);
    }
    if (begin_ == stream_.size() || begin_ >= most_taken) {
        stream_.erase(0, begin_);
        begin_ = 0;
    }
    if (is_known()) {
        door_.session()->all_taken();
    } else if (is_first_ && !transport_.is_ending() &&
               stream_.size() - begin_ > most_before_logon) {
        turn_away(stranger_words::no_logon, "a first message that is too long");
    }
    return has_taken;
}

void Conversation::skip(std::size_t count) {
    begin_ += count;
    if (is_first_) {
        turn_away(stranger_words::no_logon, "no message");
    } else if (!std::exchange(is_astray_, true) && is_known()) {
        events_.dropped("no message", door_.session()->firm());
    }
}

// Its answer leaves before what follows is looked at. The log may have taken its time for it, which
// is no silence of the firm.
void Conversation::take(std::string_view message) {
    if (std::exchange(is_first_, false)) {
        logon_was_judged(door_.judge(message));
    } else if (door_.session()->take(door_.connection(), message, at_)) {
        serve(at_);
    }
}

// What follows it counts as received from now on: its answers would bear moments before the
// Logon's.
void Conversation::logon_was_judged(Door::Standing standing) {
    waits_ = standing == Door::Standing::waits;
    serve();
    at_ = std::chrono::system_clock::now();
}

} // namespace gateway
