#include "session/wire.h"

#include "session/fix_sessions.h"

#include <array>
#include <stdexcept>

namespace gateway {

namespace {

// The longest frame that the venue reads, and that a session keeps.
using FrameRoom = std::array<std::uint8_t, 4096>;

Bytes at(std::string_view text) {
    return reinterpret_cast<Bytes>(text.data() == nullptr ? "" : text.data());
}

std::string text_of(const FrameRoom &room, std::size_t written) {
    return {reinterpret_cast<const char *>(room.data()), written};
}

} // namespace

std::optional<std::string> for_venue(std::string_view message, std::uint32_t number) {
    FrameRoom room;
    std::size_t written = 0;
    if (!fix_sessions_wire_in(at(message), message.size(), number, room.data(), room.size(),
                              &written)) {
        return std::nullopt;
    }
    return text_of(room, written);
}

std::string for_wire(std::string_view frame, std::uint32_t number, std::uint64_t refers_to,
                     ToldField told) {
    FrameRoom room;
    std::size_t written = 0;
    if (!fix_sessions_wire_out(at(frame), frame.size(), number, refers_to, told.tag, at(told.value),
                               told.value.size(), room.data(), room.size(), &written)) {
        throw std::runtime_error("no frame of the venue under number " + std::to_string(number) +
                                 ", or what is noted beside it is none: " + std::string(frame));
    }
    return text_of(room, written);
}

} // namespace gateway
