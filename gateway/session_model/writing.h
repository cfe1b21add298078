// The bytes of a message.
#ifndef SESSION_MODEL_WRITING_H
#define SESSION_MODEL_WRITING_H

#include "turn.h"

namespace session_model {

// The most bytes of the body of a frame that is kept: MsgType (35) and the message's fields.
constexpr std::size_t MOST_KEPT = 3'800;

// The frame that leaves.
std::string written(const Names &names, const Clock &clock, const Said &said);

// The frame that is kept of it: MsgType (35), and the message's fields.
std::string kept_frame(const Body &body);

// Whether a body is one or more lawful fields, the first with MsgType (35).
bool has_lawful_fields(Text body);

// The body of a frame as docs/FORMATS.md has it under "Frames"; none where it is no frame.
std::optional<Text> frame_body(Text frame);

// What a frame that is kept says; none where it is no frame, or too long.
std::optional<Body> body_of_frame(Text frame);

} // namespace session_model

#endif
