// Translates messages between the wire and the venue: gateway/README.md, "Between the wire and the
// venue".
#ifndef SESSION_MODEL_WIRES_H
#define SESSION_MODEL_WIRES_H

#include "bytes.h"

namespace session_model {

// What a firm is told beside a message of the venue's: the tag, 58 or 1003, or 0; and the text.
struct Beside {
    std::uint32_t tag = 0;
    Text text;
};

// A venue's message as the wire has it. None where the frame is none of the venue's, or is not the
// one with that number.
std::optional<std::string> to_wire(Text frame, std::uint32_t number, std::uint64_t reference,
                                   const Beside &beside);

// A firm's message as the venue is given it, under a number.
std::optional<std::string> to_venue(Text bytes, std::uint32_t number);

} // namespace session_model

#endif
