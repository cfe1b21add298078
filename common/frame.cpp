#include "common/frame.h"

#include <charconv>

#include <fmt/format.h>

namespace gateway {

namespace {

// Of a hexadecimal digit of either case.
unsigned value_of_digit(char digit) {
    const auto code = static_cast<unsigned char>(digit);
    return code <= '9' ? code - unsigned{'0'} : (code | 0x20U) - unsigned{'a'} + 10;
}

} // namespace

std::optional<std::vector<Field>> fields_of(std::string_view message) {
    std::vector<Field> fields;
    fields.reserve(24);
    while (!message.empty()) {
        const std::size_t end = message.find(soh);
        if (end == std::string_view::npos) {
            return std::nullopt;
        }
        const std::string_view field = message.substr(0, end);
        const std::size_t equals = field.find('=');
        if (equals == std::string_view::npos) {
            return std::nullopt;
        }
        fields.push_back({field.substr(0, equals), field.substr(equals + 1)});
        message.remove_prefix(end + 1);
    }
    return fields;
}

std::optional<std::string_view> value_of(const std::vector<Field> &fields, std::string_view tag) {
    for (const Field &field : fields) {
        if (field.tag == tag) {
            return field.value;
        }
    }
    return std::nullopt;
}

std::string_view value_in(std::string_view frame, std::string_view tag) {
    for (std::size_t at = frame.find(soh); at != std::string_view::npos;
         at = frame.find(soh, at + 1)) {
        const std::string_view rest = frame.substr(at + 1);
        if (rest.size() > tag.size() && rest[tag.size()] == '=' && rest.starts_with(tag)) {
            const std::string_view value = rest.substr(tag.size() + 1);
            return value.substr(0, value.find(soh));
        }
    }
    return {};
}

std::string framed(std::string_view body) {
    std::string frame = fmt::format("8=FIXT.1.1{}9={}{}", soh, body.size(), soh);
    frame += body;
    unsigned sum = 0;
    for (const char c : frame) {
        sum += static_cast<unsigned char>(c);
    }
    frame += fmt::format("10={:03}{}", sum % 256, soh);
    return frame;
}

void append_hexadecimal(std::string &text, std::string_view bytes) {
    static constexpr std::string_view digits = "0123456789ABCDEF";
    std::size_t at = text.size();
    text.resize(at + bytes.size() * 2);
    for (const char c : bytes) {
        const auto byte = static_cast<unsigned char>(c);
        text[at++] = digits[byte >> 4];
        text[at++] = digits[byte & 15];
    }
}

std::string frame_of_line(std::string_view line) {
    const std::size_t last = line.rfind(' ');
    if (!line.starts_with("hex ") || last == std::string_view::npos) {
        return "";
    }
    const std::string_view text = line.substr(last + 1);
    std::string frame(text.size() / 2, '\0');
    for (std::size_t at = 0; at < frame.size(); ++at) {
        frame[at] =
            static_cast<char>(value_of_digit(text[2 * at]) << 4 | value_of_digit(text[2 * at + 1]));
    }
    return frame;
}

std::optional<unsigned> number_of(std::string_view text) {
    unsigned number = 0;
    const auto [end, fault] = std::from_chars(text.data(), text.data() + text.size(), number);
    if (fault != std::errc() || end != text.data() + text.size() || number > 0x7fffffffU) {
        return std::nullopt;
    }
    return number;
}

} // namespace gateway
