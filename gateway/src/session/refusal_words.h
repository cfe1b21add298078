// Names the reasons for which a connection or a Logon is refused, for the operator's events, the
// metrics and the log's rows. Nobody who connects is told them.
#ifndef GATEWAY_SESSION_REFUSAL_WORDS_H
#define GATEWAY_SESSION_REFUSAL_WORDS_H

namespace gateway {

// EngineEvents::stranger()
namespace stranger_words {
constexpr const char *too_many = "too many strangers";
constexpr const char *too_many_of_address = "too many strangers of an address";
constexpr const char *made_room = "made room for a stranger of another address";
constexpr const char *no_tls = "no TLS";
constexpr const char *no_logon = "no Logon"; // the first message is another, or none
constexpr const char *no_logon_in_time = "no Logon in time";
constexpr const char *closed = "closed without a Logon"; // by the peer, or as the gateway stops
constexpr const char *unknown_name = "unknown name";     // 49, 56 and 57 name no session
} // namespace stranger_words

// SessionHost::logon_refused()
namespace refusal_words {
constexpr const char *no_access = "no access";
constexpr const char *wrong_name = "wrong name";
constexpr const char *wrong_password = "wrong password";
constexpr const char *wrong_certificate = "wrong certificate";
constexpr const char *wrong_address = "wrong address";
constexpr const char *no_longer = "credentials have ended";
constexpr const char *not_certified = "no admitted report";
// While its password was judged, or while it waited for the firm's old connection to end.
constexpr const char *read_again = "credentials were read again";
constexpr const char *second_connection = "second connection";
constexpr const char *too_often = "too many Logons";
constexpr const char *version = "version";           // 1137
constexpr const char *encryption = "encryption";     // 98
constexpr const char *heartbeat = "heartbeat";       // 108
constexpr const char *sending_time = "sending time"; // 52
constexpr const char *number = "number";             // 34, 789
constexpr const char *reset = "reset";               // 141
// After an operator's reset.
constexpr const char *begin = "numbers begin at 1: log on with 141=Y";
constexpr const char *over = "session over";         // it has no number left
constexpr const char *closed = "closed";             // the venue
constexpr const char *suspended = "suspended";       // by an operator
constexpr const char *lost_store = "lost its store"; // its engine: the session is locked by it
constexpr const char *locked = "locked";             // until an operator releases the session
} // namespace refusal_words

} // namespace gateway

#endif
