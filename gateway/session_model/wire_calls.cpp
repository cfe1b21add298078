// Implements the calls of fix_sessions.h between the wire and the venue.
#include "arguments.h"
#include "wires.h"

using namespace session_model;

namespace {

bool put(const std::optional<std::string> &frame, std::uint8_t *out, std::size_t out_len,
         std::size_t *written) {
    if (!frame || !copy_to(out, out_len, *frame)) {
        return false;
    }
    *written = frame->size();
    return true;
}

} // namespace

bool fix_sessions_wire_out(Bytes frame, std::size_t frame_len, std::uint32_t appl_number,
                           std::uint64_t ref, std::uint32_t told_tag, Bytes told,
                           std::size_t told_len, std::uint8_t *out, std::size_t out_len,
                           std::size_t *written) {
    return answered([&] {
        const Beside beside{told_tag, text_at(told, told_len)};
        return put(to_wire(text_at(frame, frame_len), appl_number, ref, beside), out, out_len,
                   written);
    });
}

bool fix_sessions_wire_in(Bytes bytes, std::size_t length, std::uint32_t number, std::uint8_t *out,
                          std::size_t out_len, std::size_t *written) {
    return answered(
        [&] { return put(to_venue(text_at(bytes, length), number), out, out_len, written); });
}
