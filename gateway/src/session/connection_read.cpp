// How a connection reads: at its firm's rate, and at its end only to pass over what still comes.
#include "session/connection.h"

#include "session/refusal_words.h"

#include <algorithm>
#include <array>

namespace gateway {

namespace {

// How much of a firm is read at once while it is held back.
constexpr std::size_t read_while_held = 4096;

// So many records in which it says nothing may come before a Logon. No engine sends one.
constexpr std::size_t most_empty_records = 256;

// So much of what a peer still sends at the end is passed over.
constexpr std::size_t most_passed_over = 4 << 20;

} // namespace

void Connection::read() {
    if (is_ending() || is_held()) {
        return;
    }
    std::array<char, 65536> bytes;
    std::size_t count = 0;
    // Where it is this thread that comes late, by small pieces it would come later and later.
    const bool comes_late = Clock::now() - reads_from_ >= tick;
    const bool was_held = held_for_ > Clock::duration(0);
    const Channel::Progress progress = channel_.read(
        bytes.data(), was_held && !comes_late ? read_while_held : bytes.size(), count);
    is_blocked_ = progress == Channel::Progress::wants_write;
    if (progress == Channel::Progress::wants_read) {
        held_for_ = {};
    }
    if (progress == Channel::Progress::ended) {
        shut(channel_.fault());
    } else if (progress == Channel::Progress::done) {
        hear({bytes.data(), count}, count);
    } else if (progress == Channel::Progress::empty) {
        hear({}, count);
    }
}

// What the peer said in so many bytes that were read: nothing, perhaps.
void Connection::hear(std::string_view said, std::size_t count) {
    const Received now = std::chrono::system_clock::now();
    Received moment = firms_time();
    if (channel_.holds_more()) {
        // It does not show in poll().
        ring();
    }
    if (said.empty()) {
        hear_nothing();
    } else if (conversation_.hear(said.data(), said.size(), now)) {
        moment = now;
    }
    time_goes_on_from(moment);
    reads_from_ = conversation_.may_hear_from(count);
    // What this thread takes, for the log above all, is not held by the rate.
    held_for_ += std::max(reads_from_ - goes_on_, Clock::duration(0));
}

// Of a firm it counts in its rate.
void Connection::hear_nothing() {
    conversation_.hear_nothing();
    if (!admitted_ && ++empty_records_ > most_empty_records) {
        conversation_.turn_away(stranger_words::no_logon, "records of TLS that say nothing");
    }
}

// The firm's time is that of its last message, and goes on from there while this thread waits for
// more. It stands still while the thread works for the firm: then the log may take its time,
// nothing is read of the firm, and what it is to answer does not leave. A clock that is set is none
// of it.
Connection::Received Connection::firms_time() const {
    return moment_ + std::chrono::duration_cast<Received::duration>(Clock::now() - goes_on_);
}

void Connection::time_goes_on_from(Received moment) {
    moment_ = moment;
    goes_on_ = Clock::now();
}

// Writes what waits, ends its own direction, and passes over what the peer still sends until that
// has ended too: a socket that is closed with bytes unread would take the last words away again.
// Of a peer that goes on without end the rest is left where it is.
void Connection::linger() {
    std::size_t left = most_passed_over;
    bool is_written = false;
    while (!shut_ && Clock::now() < finish_at_) {
        write();
        if (!wants_write_ && !is_written) {
            is_written = true;
            channel_.end_writing();
        }
        if (left > 0 && !pass_over(left)) {
            return;
        }
        wait(left > 0);
    }
}

// What has come, at most so much as is left. False where the peer's direction has ended.
bool Connection::pass_over(std::size_t &left) {
    std::array<char, 65536> bytes;
    std::size_t count = 0;
    const Channel::Progress progress = channel_.read(bytes.data(), bytes.size(), count);
    is_blocked_ = progress == Channel::Progress::wants_write;
    left -= std::min(left, count);
    return progress != Channel::Progress::ended;
}

} // namespace gateway
