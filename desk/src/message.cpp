#include "message.h"

#include <charconv>

namespace desk {

namespace {

template <typename Number> Number number_of(std::string_view text) {
    Number number = 0;
    const auto [end, fault] = std::from_chars(text.data(), text.data() + text.size(), number);
    return fault == std::errc() && end == text.data() + text.size() ? number : 0;
}

} // namespace

Message::Message(std::string_view raw) {
    constexpr char soh = '\x01';
    while (!raw.empty()) {
        const std::size_t end = raw.find(soh);
        const std::string_view field = raw.substr(0, end);
        const std::size_t equals = field.find('=');
        if (equals != std::string_view::npos) {
            fields_.emplace_back(number_of<int>(field.substr(0, equals)), field.substr(equals + 1));
        }
        raw.remove_prefix(end == std::string_view::npos ? raw.size() : end + 1);
    }
}

const std::string &Message::get(int tag) const {
    static const std::string none;
    for (const auto &[own, value] : fields_) {
        if (own == tag) {
            return value;
        }
    }
    return none;
}

std::vector<std::string> Message::all(int tag) const {
    std::vector<std::string> values;
    for (const auto &[own, value] : fields_) {
        if (own == tag) {
            values.push_back(value);
        }
    }
    return values;
}

std::int64_t Message::number(int tag) const {
    return number_of<std::int64_t>(get(tag));
}

} // namespace desk
