// Translates numbers and times between messages on the wire and those of the venue.
#ifndef GATEWAY_SESSION_WIRE_H
#define GATEWAY_SESSION_WIRE_H

#include <cstdint>
#include <optional>
#include <string>
#include <string_view>

namespace gateway {

// A firm's message for the venue, of one that its session gives it: framed anew, 34 the venue's
// count for that firm, 52 cut to milliseconds, and 43 (PossDupFlag), 97 (PossResend) and 122
// (OrigSendingTime) left out. Every other field stands as it came, in its order and with every
// byte. Nothing where that is longer than the venue reads, which would drop it without an answer.
std::optional<std::string> for_venue(std::string_view message, std::uint32_t number);

// What a firm is told beside a message of the venue's: a field, as its last one.
struct ToldField {
    std::uint32_t tag = 0; // 0 where it is told nothing
    std::string_view value;
};

// A message of the venue as a session keeps it: 35, ApplSeqNum (1181) with the venue's number, and
// the body, with the venue's 52 in TransactTime (60), each in its place by the dictionary of
// `fix/`; all other fields are the venue's, byte for byte and in their order. In a Reject (35=3)
// RefSeqNum (45) becomes `refers_to`, the session's number of the message that is answered. Throws
// std::runtime_error where the frame is none of the venue's under this number, or says already what
// is told beside it.
std::string for_wire(std::string_view frame, std::uint32_t number, std::uint64_t refers_to,
                     ToldField told);

} // namespace gateway

#endif
