#include "base/printable.h"

#include <algorithm>

namespace gateway {

namespace {

constexpr std::string_view dots = "...";

char printable(char c) {
    const auto byte = static_cast<unsigned char>(c);
    if (byte == 1) {
        return '|';
    }
    if (c == '"') {
        return '\'';
    }
    return byte >= ' ' && byte < 0x7f ? c : '?';
}

} // namespace

std::string printable(std::string_view text, std::size_t most) {
    std::string shown(text.substr(0, most));
    std::ranges::transform(shown, shown.begin(), [](char c) { return printable(c); });
    if (text.size() > most && most >= dots.size()) {
        shown.replace(most - dots.size(), dots.size(), dots);
    }
    return shown;
}

} // namespace gateway
