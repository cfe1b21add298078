#include "bytes.h"

#include <algorithm>
#include <numeric>

namespace session_model {

namespace {

constexpr std::size_t MOST_DIGITS = 9;

} // namespace

bool are_digits(Text text) {
    return !text.empty() && std::all_of(text.begin(), text.end(), is_digit);
}

std::optional<std::uint32_t> number_in(Text text) {
    if (text.size() > MOST_DIGITS || !are_digits(text)) {
        return std::nullopt;
    }
    return std::accumulate(text.begin(), text.end(), 0U, [](std::uint32_t number, char digit) {
        return number * 10 + static_cast<std::uint32_t>(digit - '0');
    });
}

std::optional<std::uint32_t> sequence_number_in(Text text) {
    const std::optional<std::uint32_t> number = number_in(text);
    return number == 0U ? std::nullopt : number;
}

std::string field(std::uint32_t tag, Text value) {
    std::string text = std::to_string(tag);
    text += '=';
    text += value;
    text += SOH;
    return text;
}

std::string field(std::uint32_t tag, std::uint64_t value) {
    return field(tag, Text(std::to_string(value)));
}

unsigned sum_of(Text bytes) {
    return std::accumulate(
               bytes.begin(), bytes.end(), 0U,
               [](unsigned sum, char byte) { return sum + static_cast<unsigned char>(byte); }) %
           256;
}

std::string three_digits(unsigned number) {
    std::string digits = std::to_string(number);
    digits.insert(0, 3 - std::min<std::size_t>(digits.size(), 3), '0');
    return digits;
}

std::string framed(Text body) {
    std::string frame = field(8, Text("FIXT.1.1")) + field(9, body.size());
    frame += body;
    return frame + field(10, Text(three_digits(sum_of(frame))));
}

} // namespace session_model
