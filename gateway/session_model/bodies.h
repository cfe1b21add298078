// Writes the bodies of the session's own messages, and the words of Text (58).
#ifndef SESSION_MODEL_BODIES_H
#define SESSION_MODEL_BODIES_H

#include "incoming.h"
#include "turn.h"

namespace session_model {

// What a Logon is answered with.
struct LogonAnswer {
    std::uint64_t heartbeat = 0; // HeartBtInt (108), as it was received
    bool is_reset = false;
    std::optional<std::uint64_t> expected = {}; // NextExpectedMsgSeqNum (789)
};

Body logon(const LogonAnswer &answer);
Body logout(Text reason); // without Text (58) where there is none
Body heartbeat(std::optional<Text> test_id);
Body test_request(std::uint64_t number);
Body resend_request(std::uint64_t first);
Body gap_fill(std::uint64_t next);
Body reject_of(const Incoming &message, Fault fault);

// Why the gateway does not take a message: a BusinessMessageReject (35=j).
struct Denial {
    std::uint64_t reason = 0; // BusinessRejectReason (380)
    Text id, text;            // 379, or none; 58
};

Body business_reject_of(const Incoming &message, const Denial &denial);

} // namespace session_model

#endif
