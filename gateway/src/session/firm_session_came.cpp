// What a session does with the messages that come on its connections.
#include "session/firm_session.h"
#include "session/refusal_words.h"
#include "session/transport.h"

#include <array>
#include <utility>

namespace gateway {

namespace {

// What a Logout says that refuses a Logon begins with one of these.
struct RefusalText {
    std::string_view begin;
    const char *word;
};
constexpr std::array<RefusalText, 11> refusal_texts = {{
    {"the venue is closed", refusal_words::closed},
    {"suspended", refusal_words::suspended},
    {"EncryptMethod", refusal_words::encryption},
    {"DefaultApplVerID", refusal_words::version},
    {"HeartBtInt", refusal_words::heartbeat},
    {"SendingTime", refusal_words::sending_time},
    {"numbers are not reset", refusal_words::reset},
    {"MsgSeqNum was too low", refusal_words::locked},
    {"numbers begin at 1", refusal_words::begin},
    {"MsgSeqNum too low", refusal_words::number},
    {"NextExpectedMsgSeqNum", refusal_words::number},
}};

// Text (58) of a Logout.
constexpr std::string_view too_much_is_answered =
    "more than a thousand messages of this firm, and then ten a second, had to be answered by the "
    "session";
constexpr const char *logs_on_too_often =
    "this firm has logged on more than a thousand times, and then once a second: wait some "
    "seconds, and log on again";

} // namespace

FirmSession::Standing FirmSession::enter(std::uint64_t connection, Transport &transport,
                                         std::string_view logon, std::uint64_t reading) {
    const std::lock_guard lock(mutex_);
    Visitor &of = visitors_[connection];
    of.transport = &transport;
    of.reading = reading;
    return judge_logon(connection, logon);
}

FirmSession::Standing FirmSession::look_again(std::uint64_t connection, std::string_view logon) {
    const std::lock_guard lock(mutex_);
    const Wanted wanted = machine_.wants();
    if (wanted.kind == static_cast<std::uint32_t>(Want::logon) && wanted.number == connection) {
        return judge_logon(connection, logon);
    }
    const Standing standing = standing_here(connection);
    Visitor *const of = visitor(connection);
    if (standing == Standing::over && of != nullptr) {
        tell_refused(*of, refusal_words::second_connection);
    }
    return standing;
}

// At the moment of now: to judge a password takes its time. Where another connection has the
// session, the two seconds in which that may say something begin, and these are of its time.
FirmSession::Received FirmSession::logon_moment(std::uint64_t connection) const {
    const bool is_second = !machine_.is_away() && !machine_.has(connection);
    return std::chrono::system_clock::now() + (is_second ? ahead_ : Received::duration(0));
}

FirmSession::Standing FirmSession::judge_logon(std::uint64_t connection, std::string_view logon) {
    if (const auto why = host_.not_open(names_.firm)) {
        return refuse_before_opening(connection, logon, *why);
    }
    if (visitors_[connection].reading != host_.readings()) {
        return refuse_in_silence(connection, refusal_words::read_again);
    }
    const bool too_often = !logons_.may_log_on(LogonRate::Time::clock::now());
    const Denial denial{0, {}, logs_on_too_often};
    const std::uint32_t expected = machine_.numbers().expected;
    machine_.came(begin(logon_moment(connection)), connection, logon, true,
                  too_often ? &denial : nullptr);
    const auto notice = static_cast<Notice>(machine_.turn().told.notice);
    if (notice == Notice::lost_store) {
        tell_refused(visitors_[connection], refusal_words::lost_store);
    }
    if (notice == Notice::refused && host_.replies_too_much(names_.firm)) {
        return refuse_in_silence(connection, word_of_refusal(connection, logon, too_often));
    }
    carry_out(nullptr);
    const Standing standing = standing_here(connection);
    Visitor &of = visitors_[connection];
    if (standing == Standing::on) {
        of.was_judged = true;
        tell_climb(logon, expected);
    } else if (standing != Standing::waits) {
        const char *word = refusal_words::second_connection;
        if (notice == Notice::refused) {
            word = word_of_refusal(connection, logon, too_often);
        } else if (machine_.numbers().is_spent()) {
            word = refusal_words::over;
        }
        tell_refused(of, word);
    }
    return standing;
}

void FirmSession::credentials_refused(std::string_view logon) {
    const std::lock_guard lock(mutex_);
    if (const auto number = logon_number(logon)) {
        refused_.refuse(*number, machine_.numbers().expected);
    }
}

// Who climbed over numbers that came before, while it was refused for its credentials.
void FirmSession::tell_climb(std::string_view logon, std::uint32_t expected) {
    const bool resets = logon.find("\x01"
                                   "141=Y\x01") != std::string_view::npos;
    const auto climb = refused_.accept(logon_number(logon).value_or(0), expected, resets);
    if (climb) {
        host_.may_have_lost_store(names_.firm, *climb);
    }
}

// The numbers are the host's, since another gateway may use some up. The host keeps them before
// the Logout leaves; where it can't, none leaves.
FirmSession::Standing FirmSession::refuse_before_opening(std::uint64_t connection,
                                                         std::string_view logon,
                                                         const NotOpen &why) {
    Visitor &of = visitors_[connection];
    tell_refused(of, refusal_words::closed);
    if (!why.numbers) {
        end(of, why.text);
        return standing_here(connection);
    }
    machine_.begin_with(*why.numbers);
    const Denial denial{0, {}, why.text};
    machine_.came(begin(), connection, logon, true, &denial);
    try {
        carry_out(nullptr);
    } catch (const std::exception &fault) {
        events_.dropped("no Logout", name_ + ": " + fault.what());
        end(of, why.text);
    }
    return standing_here(connection);
}

// Nothing of the session changes. By credentials that were read again: whoever read them has logged
// out whom they let in no more, and this one was not in yet. It may come again at once, and is
// judged by those of now. Behind too many replies: a Logout would be one more.
FirmSession::Standing FirmSession::refuse_in_silence(std::uint64_t connection, const char *word) {
    Visitor &of = visitors_[connection];
    tell_refused(of, word);
    end(of, word);
    return standing_here(connection);
}

const char *FirmSession::word_of_refusal(std::uint64_t connection, std::string_view logon,
                                         bool too_often) {
    if (too_often) {
        return refusal_words::too_often;
    }
    const std::string text = machine_.why_refused(moment_now(), connection, logon);
    for (const RefusalText &refusal : refusal_texts) {
        if (text.starts_with(refusal.begin)) {
            return refusal.word;
        }
    }
    return refusal_words::number;
}

void FirmSession::tell_refused(Visitor &refused, const char *word) {
    if (!std::exchange(refused.was_judged, true)) {
        host_.logon_refused(names_.firm, refused.transport->facts(), word);
    }
}

bool FirmSession::take(std::uint64_t connection, std::string_view message, Received at) {
    bool has_waited = false;
    try {
        while (judge(connection, message, at) == Came::waits) {
            // Without the lock: what the log waits for may be that this session takes what it is
            // given.
            has_waited = true;
            host_.wait_for_turn(names_.firm, Receipt{0, at});
        }
    } catch (...) {
        host_.give_turn_back(names_.firm);
        throw;
    }
    if (has_waited) {
        host_.give_turn_back(names_.firm);
    }
    return has_to_say(connection);
}

FirmSession::Came FirmSession::judge(std::uint64_t connection, std::string_view message,
                                     Received at) {
    const std::lock_guard lock(mutex_);
    Visitor *const from = visitor(connection);
    if (from == nullptr || from->is_over) {
        return Came::done;
    }
    if (from->parts) {
        if (is_logout(message)) {
            end(*from, "its Logon was refused");
        }
        return Came::done;
    }
    const MachineTurn &turn = machine_.came(begin(at), connection, message, false);
    if (turn.told.takes == 0) {
        message_ = message;
        carry_out(nullptr);
        log_out_if_too_much(too_much_is_answered);
        return Came::done;
    }
    const auto number = static_cast<std::uint32_t>(turn.told.takes);
    const Taken taken =
        host_.take(names_.firm, {message, number, {from->number, at}}, event_of(nullptr));
    if (taken.verdict == Taken::Verdict::waits) {
        return Came::waits;
    }
    if (taken.verdict == Taken::Verdict::denied) {
        deny(connection, message, at, taken);
        return Came::done;
    }
    has_received_ = true;
    complete(0, nullptr);
    return Came::done;
}

// The message is judged anew, as one that the gateway does not take.
void FirmSession::deny(std::uint64_t connection, std::string_view message, Received at,
                       const Taken &taken) {
    const Denial denial{taken.reason, taken.id, taken.text};
    machine_.came(begin(at), connection, message, false, &denial);
    carry_out(nullptr);
    log_out_if_too_much(taken.text);
}

// What the session says by itself stands in the log: a firm that has it say something without end
// is logged out. Some of it was said behind an earlier message, in a turn of its own.
void FirmSession::log_out_if_too_much(std::string_view text) {
    if (machine_.is_on() && host_.replies_too_much(names_.firm)) {
        machine_.log_out(begin(), text);
        note_why(std::string(text));
        carry_out(nullptr);
    }
}

// Without the lock: a commit takes its time, and what the venue answers meanwhile may be delivered.
void FirmSession::all_taken() {
    {
        const std::lock_guard lock(mutex_);
        if (!std::exchange(has_received_, false)) {
            return;
        }
    }
    host_.all_received();
}

void FirmSession::release(std::uint64_t connection, const std::string &why) {
    const std::lock_guard lock(mutex_);
    Visitor *const of = visitor(connection);
    if (of == nullptr) {
        return;
    }
    try {
        tell_refused(*of, refusal_words::second_connection);
        machine_.gone(connection);
        carry_out(nullptr);
        if (of->number != 0) {
            host_.connection_ended(names_.firm, of->number, of->why.empty() ? why : of->why);
        }
    } catch (const std::exception &fault) {
        // The log takes nothing any more, and the gateway ends.
        events_.dropped("session", name_ + ": " + fault.what());
    }
    leave(connection);
}

// Whatever the log said, the connection has nothing of the session any more.
void FirmSession::leave(std::uint64_t connection) {
    if (machine_.has(connection) || machine_.waits(connection)) {
        machine_.gone(connection);
        machine_.adopt();
    }
    visitors_.erase(connection);
    note_transport();
}

} // namespace gateway
