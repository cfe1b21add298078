// How what a session has to send leaves.
#include "session/firm_session.h"
#include "session/transport.h"

#include <algorithm>
#include <chrono>
#include <utility>

namespace gateway {

namespace {

// So many steps are done before the connection is read again, and no more where so many bytes wait
// for the firm to take them.
constexpr std::size_t most_steps = 256;
constexpr std::size_t enough_bytes = 65536;

// What is read of the log counts in the rate as so many messages at least, however few are sent:
// a firm that asks for one number again and again has the log read each time.
constexpr std::size_t least_of_a_read = 64;

} // namespace

FirmSession::Work FirmSession::serve(std::uint64_t connection, Received now) {
    std::size_t handed = 0;
    std::size_t read = 0;
    Step done = Step::moved;
    for (std::size_t steps = 0; steps < most_steps && done != Step::idle && done != Step::held;
         ++steps) {
        done = step(connection, now);
        if (done == Step::unknown) {
            load(connection);
            read += least_of_a_read;
        }
        handed += done == Step::handed ? 1 : 0;
    }
    const Time from = count_handed(std::max(handed, read));
    if (!flush(connection, handed > 0) || done == Step::idle) {
        return {};
    }
    return {true, from};
}

// From when on more may be handed to the firm: also where this was all, since it may ask again.
FirmSession::Time FirmSession::count_handed(std::size_t handed) {
    const Time from = handed > 0 ? host_.was_sent_again(names_.firm, handed) : Time();
    const std::lock_guard lock(mutex_);
    hands_from_ = std::max(hands_from_, from);
    return hands_from_;
}

bool FirmSession::has_to_say(std::uint64_t connection) {
    const std::lock_guard lock(mutex_);
    const Visitor *const to = visitor(connection);
    if (to == nullptr) {
        return false;
    }
    const bool has_unsent =
        !to->unsent.empty() && (to->last_ticket > stored_ticket_ || may_leave(to->unsent.front()));
    return has_unsent || to->is_over ||
           (machine_.is_on() && machine_.wants().kind != static_cast<std::uint32_t>(Want::nothing));
}

// What is the session's own leaves once it is committed, which is waited for, as it is for what was
// handed over again and at a connection's end. All else leaves with its commit: whoever has done
// that sends it. False where the connection ends.
bool FirmSession::flush(std::uint64_t connection, bool waits) {
    std::unique_lock lock(mutex_);
    for (;;) {
        Visitor *const to = visitor(connection);
        if (to == nullptr) {
            return false;
        }
        send_what_may_leave(*to);
        if (to->unsent.empty() && to->is_over) {
            to->transport->finish(to->why);
            return false;
        }
        const bool has_own = to->last_ticket > stored_ticket_;
        if (to->unsent.empty() || (!has_own && !waits && !to->is_over)) {
            return true;
        }
        wait_stored(lock, to->last_ticket, to->unsent.back().place);
        waits = false; // what the venue gave meanwhile keeps nobody from being read
    }
}

// Without the lock, since it takes its time; it is held before and after.
void FirmSession::wait_stored(std::unique_lock<std::mutex> &lock, std::uint64_t ticket,
                              std::uint32_t place) {
    const bool is_ticket_stored = ticket <= stored_ticket_;
    lock.unlock();
    if (!is_ticket_stored) {
        host_.wait_stored(ticket);
    }
    host_.wait_entry_stored(place);
    lock.lock();
    stored_ticket_ = std::max(stored_ticket_, ticket);
}

FirmSession::Step FirmSession::step(std::uint64_t connection, Received now) {
    const std::lock_guard lock(mutex_);
    const SessionState &state = machine_.state();
    Visitor *const of = visitor(connection);
    if (!machine_.is_on() || state.line.connection != connection || of == nullptr ||
        of->transport->waiting() >= enough_bytes) {
        return Step::idle;
    }
    const Wanted wanted = machine_.wants();
    switch (static_cast<Want>(wanted.kind)) {
    case Want::tick:
        machine_.tick(begin(now));
        carry_out(nullptr);
        return Step::moved;
    case Want::again:
    case Want::fresh:
        return std::chrono::steady_clock::now() < hands_from_ ? Step::held : hand(wanted);
    default:
        return Step::idle;
    }
}

// Hands the machine what is kept under the number that it asks for.
FirmSession::Step FirmSession::hand(const Wanted &wanted) {
    const bool is_again = wanted.kind == static_cast<std::uint32_t>(Want::again);
    const std::uint64_t again_end = machine_.state().line.again_end;
    const KeptRows::Found found =
        rows_.find(wanted.number, is_again ? again_end : wanted.number + 1);
    if (!found.is_known) {
        load_from_ = static_cast<std::uint32_t>(wanted.number);
        load_end_ = is_again ? static_cast<std::uint32_t>(again_end) : machine_.numbers().next;
        return Step::unknown;
    }
    if (found.row == nullptr) {
        machine_.hands(begin(), found.next, {}, 0, false);
    } else {
        const KeptMessage &kept = found.row->message;
        moment_ = std::max(begin(), kept.first);
        machine_.hands(moment_, found.next, kept.frame, kept.first, kept.is_copy);
    }
    carry_out(nullptr);
    rows_.drop_before(wanted.number);
    return Step::handed;
}

// Reads what is kept from a number on, and no more of it than is to leave. What is kept meanwhile
// is put behind it.
void FirmSession::load(std::uint64_t connection) {
    std::unique_lock lock(mutex_);
    const std::uint32_t from = load_from_;
    const std::uint32_t end = load_end_;
    const std::uint64_t before = forgotten_;
    rows_.forget(machine_.numbers().next);
    lock.unlock();
    std::vector<KeptMessage> read =
        host_.kept_messages(names_.firm, from, std::min<std::size_t>(KeptRows::chunk, end - from));
    lock.lock();
    if (before == forgotten_ && machine_.has(connection)) {
        rows_.put(from, end - 1, std::move(read));
    }
}

} // namespace gateway
