#include "base/escaped.h"

#include <charconv>

#include <fmt/format.h>

namespace gateway {

namespace {

constexpr std::size_t digits = 2; // of \xHH

bool is_plain(unsigned char byte) {
    return byte >= ' ' && byte < 0x7f && byte != '"' && byte != '\\';
}

} // namespace

std::string escaped(std::string_view bytes) {
    std::string text;
    for (const char c : bytes) {
        const auto byte = static_cast<unsigned char>(c);
        if (is_plain(byte)) {
            text += c;
        } else {
            text += fmt::format("\\x{:02x}", byte);
        }
    }
    return text;
}

std::optional<std::string> unescaped(std::string_view text) {
    std::string bytes;
    for (std::size_t at = 0; at < text.size(); ++at) {
        if (!text.substr(at).starts_with("\\x")) {
            bytes += text[at];
            continue;
        }
        const std::string_view hex = text.substr(at + 2, digits);
        unsigned byte = 0;
        const auto [end, fault] = std::from_chars(hex.data(), hex.data() + hex.size(), byte, 16);
        if (hex.size() < digits || fault != std::errc() || end != hex.data() + digits) {
            return std::nullopt;
        }
        bytes += static_cast<char>(byte);
        at += 1 + digits;
    }
    return escaped(bytes) == text ? std::optional(bytes) : std::nullopt;
}

} // namespace gateway
