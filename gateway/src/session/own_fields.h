// Reads fields of messages that a session's machine wrote, never of messages that came.
#ifndef GATEWAY_SESSION_OWN_FIELDS_H
#define GATEWAY_SESSION_OWN_FIELDS_H

#include <string_view>

namespace gateway::own_fields {

constexpr std::string_view msg_type = "\x01"
                                      "35=";
constexpr std::string_view text = "\x01"
                                  "58=";

// The value of the first field with this tag; empty without one.
inline std::string_view value_in(std::string_view frame, std::string_view tag) {
    const std::size_t found = frame.find(tag);
    if (found == std::string_view::npos) {
        return {};
    }
    const std::size_t begin = found + tag.size();
    return frame.substr(begin, frame.find('\x01', begin) - begin);
}

} // namespace gateway::own_fields

#endif
