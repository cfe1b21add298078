// Messages as text: fields, frames, and what a reader sees.
#ifndef SESSIONS_TEXTS_H
#define SESSIONS_TEXTS_H

#include <string>

namespace sessions {

// `TAG=VALUE`, and SOH.
std::string field(int tag, const std::string &value);

// A body in a frame of FIXT.1.1.
std::string framed(const std::string &body);

// The body of a frame.
std::string body_of(const std::string &frame);

// The value of the first field with a tag, or nothing.
std::string value_of(const std::string &frame, int tag);

// Whether a field has this tag.
bool has_tag(const std::string &frame, int tag);

// A frame with bars in place of SOH.
std::string seen(std::string frame);

} // namespace sessions

#endif
