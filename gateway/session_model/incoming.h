// A message that came, as the session reads it.
#ifndef SESSION_MODEL_INCOMING_H
#define SESSION_MODEL_INCOMING_H

#include "fields.h"

namespace session_model {

struct Incoming {
    enum class Kind {
        garbled,       // no message, or one with a wrong length or sum
        other_version, // BeginString (8) is not FIXT.1.1
        too_long,      // the first 65,536 bytes of a longer one
        message,
    };
    Kind kind = Kind::garbled;
    Text version; // BeginString (8)
    Text body;
    std::size_t length = 0; // of the whole message
    Fields fields;

    // MsgType (35), or nothing.
    Text type() const { return fields.value(tag::MsgType).value_or(Text()); }
    std::optional<std::uint32_t> number() const { return fields.sequence_number(); }
    // It is one that the firm may have sent before: PossDupFlag (43) is Y.
    bool is_again() const { return fields.is(tag::PossDupFlag, "Y"); }
};

Incoming read_incoming(Text bytes);

// The first fault of its form, and of the values of 7, 16, 36, 112 and 123.
std::optional<Fault> fault_of(const Incoming &message);

// A Logon whose form is right, with names and a number: what the first message of a connection has
// to be before its names are compared.
bool is_logon(const Incoming &message);

} // namespace session_model

#endif
