#include "venue/given_fields.h"

#include "common/frame.h"

namespace gateway {

GivenFields::GivenFields(std::string_view frame) {
    // BeginString (8) is not looked at.
    for (std::size_t end = frame.find(soh); end != std::string_view::npos;) {
        frame.remove_prefix(end + 1);
        end = frame.find(soh);
        take(frame.substr(0, end));
    }
}

void GivenFields::take(std::string_view field) {
    const std::size_t equals = field.find('=');
    if (equals == std::string_view::npos) {
        return;
    }
    std::string_view *const value = value_of(field.substr(0, equals));
    if (value != nullptr && value->data() == nullptr) {
        *value = field.substr(equals + 1);
    }
}

std::string_view *GivenFields::value_of(std::string_view tag) {
    switch (number_of(tag).value_or(0)) {
    case 34:
        return &number;
    case 35:
        return &type;
    case 48:
        return &bond;
    case 52:
        return &moment;
    case 117:
        return &quote;
    case 131:
        return &request;
    case 297:
        return &status;
    case 300:
        return &reason;
    case 453:
        return &dealers;
    case 693:
        return &response;
    default:
        return nullptr;
    }
}

} // namespace gateway
