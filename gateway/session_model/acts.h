// The steps that a session can take, whatever the reason: to count a message, to answer, to end.
#ifndef SESSION_MODEL_ACTS_H
#define SESSION_MODEL_ACTS_H

#include "incoming.h"
#include "turn.h"

namespace session_model {

// The greatest number of a day.
constexpr std::uint64_t LAST_NUMBER = 999'999'990;

// A time since another one; none where the clock was set back.
std::uint64_t passed(std::uint64_t since, std::uint64_t now);

// Whether a time is more than two minutes from that of arrival.
bool is_off(const Time &time, const Clock &clock);

// The numbers of the day are used up, or those of the connection are none that it can have.
bool is_used_up(const SessionState &session);

// All that has a number has left, and nothing leaves again.
bool is_clear(const SessionState &session);

// The connection that has the session, or 0.
std::uint64_t connection_of(const SessionState &session);

// The session is no connection's.
void go_away(SessionState &session);

// Something came on the connection that has the session: who waits for its end waits in vain.
void something_came(SessionState &session);

// A connection waits no longer, if it does.
void end_waiting(SessionState &session, std::uint64_t connection);

// The connection ends, and nothing leaves.
void disconnect(Turn &turn);

// The firm's message counts.
void count(SessionState &session, const Clock &clock);
void count_if_expected(SessionState &session, const Clock &clock, const Incoming &message);

// The expected number is another one, above that before.
void expect(SessionState &session, const Clock &clock, std::uint64_t number);

// A message of the session's own leaves at once.
void send(Turn &turn, const Clock &clock, Body body);

// One that waits for its turn: it leaves, or is kept under its number until it may.
void answer(Turn &turn, const Clock &clock, Body body);

// A Reject, or a BusinessMessageReject: it is kept, and leaves if it may.
void refuse(Turn &turn, const Clock &clock, Body body);

// A TestRequest, which may overtake what does not leave yet.
void test(Turn &turn, const Clock &clock);

// A Logout with a reason.
void log_out(Turn &turn, const Clock &clock, Text reason);

// A Reject of a message, which counts where its number is the expected one.
void reject(Turn &turn, const Clock &clock, const Incoming &message, Fault fault);

// The same, and a Logout.
void reject_and_log_out(Turn &turn, const Clock &clock, const Incoming &message, Fault fault,
                        Text reason);

// A Logout for a message, which counts where its number is the expected one.
void log_out_for(Turn &turn, const Clock &clock, const Incoming &message, Text reason);

} // namespace session_model

#endif
