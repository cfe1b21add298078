#include "shown.h"

#include <algorithm>
#include <array>
#include <bit>
#include <cstddef>

namespace gateway {

namespace {

// How many bytes the first character of a text has, in UTF-8; 0 where it is a control character, or
// none. A byte that is no UTF-8 may be a control character of a terminal, and the system's journal
// shows no word of a line that has one.
std::size_t length_of_character(std::string_view text) {
    const auto byte = [text](std::size_t at) { return static_cast<unsigned char>(text[at]); };
    if (byte(0) < 0x80) {
        return byte(0) >= ' ' && byte(0) != 0x7f ? 1 : 0;
    }
    // The first one of each length; but of two bytes the first behind the control characters.
    constexpr std::array<char32_t, 5> least = {0, 0, 0xa0, 0x800, 0x10000};
    const auto length = static_cast<std::size_t>(std::countl_one(byte(0)));
    if (length < 2 || length >= least.size() || length > text.size()) {
        return 0;
    }
    char32_t code = byte(0) & (0x7fU >> length);
    for (std::size_t at = 1; at < length; ++at) {
        if ((byte(at) & 0xc0U) != 0x80) {
            return 0;
        }
        code = code << 6U | (byte(at) & 0x3fU);
    }
    const bool is_half = code >= 0xd800 && code <= 0xdfff; // of a pair of UTF-16
    return code >= least.at(length) && code <= 0x10ffff && !is_half ? length : 0;
}

} // namespace

std::string shown(std::string_view bytes) {
    std::string text;
    text.reserve(bytes.size());
    while (!bytes.empty()) {
        const std::size_t length = length_of_character(bytes);
        if (length > 0) {
            text.append(bytes.substr(0, length));
        } else {
            text += bytes.front() == '\x01' ? '|' : '?';
        }
        bytes.remove_prefix(std::max<std::size_t>(length, 1));
    }
    return text;
}

} // namespace gateway
