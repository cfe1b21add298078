// Cuts a stream of bytes into messages: docs/FORMATS.md, "What comes over the network".
#ifndef SESSION_MODEL_CUTTER_H
#define SESSION_MODEL_CUTTER_H

#include "bytes.h"

namespace session_model {

// The most bytes of a message that are read.
constexpr std::size_t MOST_MESSAGE = 65'536;

// What stands at the front of some bytes.
struct Front {
    enum class Kind {
        none,     // no message begins here
        begun,    // one may begin here: more bytes will say
        whole,    // a message, with a CheckSum (10) where its BodyLength (9) says
        too_long, // a message of more bytes than are read
    };
    Kind kind = Kind::none;
    Text version; // BeginString (8)
    Text body;
    std::size_t length = 0;    // of the whole message
    bool is_sum_right = false; // of a whole one
};

// Reads the front of some bytes.
Front front_of(Text bytes);

// The first message of a stream.
struct Found {
    enum class Kind { nothing, message, too_long };
    std::size_t skip = 0; // so many bytes are garbled
    Kind kind = Kind::nothing;
    std::size_t length = 0; // of a message
};

// Finds the first message of a stream. A message with a wrong sum is passed over whole; behind
// other bytes that are none the next one is looked for from the second byte on.
Found next_message(Text stream);

} // namespace session_model

#endif
