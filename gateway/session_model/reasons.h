// The words of Text (58) in a Logout.
#ifndef SESSION_MODEL_REASONS_H
#define SESSION_MODEL_REASONS_H

#include "bytes.h"

namespace session_model::reasons {

// Why a Logon is refused, and why an operator's order logs a firm out.
constexpr Text CLOSED = "the venue is closed";
constexpr Text SUSPENDED = "suspended by the venue";

// Why a Logon is refused.
constexpr Text ENCRYPTION = "EncryptMethod (98) is not 0";
constexpr Text VERSION = "DefaultApplVerID (1137) is not 9";
constexpr Text HEARTBEAT = "HeartBtInt (108) is not 1 to 300";
constexpr Text RESET = "numbers are not reset any more today (141)";
constexpr Text LOST_STORE = "MsgSeqNum was too low: ask the venue";
constexpr Text AFTER_RESET = "numbers begin at 1: log on with 141=Y";
constexpr Text NEXT_EXPECTED = "NextExpectedMsgSeqNum (789) is not one that the venue has reached";

// The same, or why a session ends.
constexpr Text SENDING_TIME = "SendingTime (52) is not the venue's time";
std::string too_low(std::uint64_t expected);

// Why a session ends.
std::string other_version(Text version);
constexpr Text NO_NUMBER = "MsgSeqNum (34) can not be read";
constexpr Text OTHER_NAME = "SenderCompID (49) or TargetCompID (56) is another's";
constexpr Text TOO_LONG = "a message has more than 65536 bytes";
constexpr Text LOGGED_ON = "logged on already";
constexpr Text SILENT = "nothing came";

} // namespace session_model::reasons

#endif
