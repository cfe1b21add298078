#include "common/price.h"

#include <cstdint>

namespace gateway {

namespace {

struct Decimal {
    std::int64_t digits = 0; // all of them, as one number
    std::int64_t scale = 1;  // what they are divided by
};

std::optional<Decimal> decimal_of(std::string_view text) {
    constexpr int most_digits = 15;
    Decimal number;
    int count = 0;
    bool is_fraction = false;
    for (const char c : text) {
        if (c == '.' && !is_fraction) {
            is_fraction = true;
        } else if (c >= '0' && c <= '9' && ++count <= most_digits) {
            number.digits = number.digits * 10 + (c - '0');
            number.scale *= is_fraction ? 10 : 1;
        } else {
            return {};
        }
    }
    return count > 0 ? std::optional(number) : std::nullopt;
}

} // namespace

std::optional<Price> price_of(std::string_view text) {
    const std::optional<Decimal> number = decimal_of(text);
    // More would not fit when it is multiplied, and is out of range in any case.
    if (!number || number->digits / number->scale > 999) {
        return {};
    }
    const std::int64_t whole = number->digits / number->scale;
    const std::int64_t rest = number->digits % number->scale * 256;
    const Price price{static_cast<int>(whole * 256 + rest / number->scale)};
    return rest % number->scale == 0 && price.is_in_range() ? std::optional(price) : std::nullopt;
}

std::string text_of(Price price) {
    std::string text = std::to_string(price.in_256ths / 256);
    int rest = price.in_256ths % 256;
    if (rest != 0) {
        text += '.';
    }
    while (rest != 0) {
        rest *= 10;
        text += static_cast<char>('0' + rest / 256);
        rest %= 256;
    }
    return text;
}

} // namespace gateway
