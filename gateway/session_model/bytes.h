// Texts as they come over the network, and the numbers in them.
#ifndef SESSION_MODEL_BYTES_H
#define SESSION_MODEL_BYTES_H

#include <cstddef>
#include <cstdint>
#include <optional>
#include <string>
#include <string_view>

namespace session_model {

using Text = std::string_view;

constexpr char SOH = '\x01';

// The greatest number that a field may have: nine digits.
constexpr std::uint32_t MOST_NUMBER = 999'999'999;

inline bool is_digit(char byte) {
    return byte >= '0' && byte <= '9';
}

inline bool is_letter(char byte) {
    return (byte >= 'A' && byte <= 'Z') || (byte >= 'a' && byte <= 'z');
}

// Whether a text is digits and nothing else, and not empty.
bool are_digits(Text text);

// The number that a text is: 1 to 9 digits, leading zeros allowed.
std::optional<std::uint32_t> number_in(Text text);

// The number of a MsgSeqNum (34): 1 to 999,999,999.
std::optional<std::uint32_t> sequence_number_in(Text text);

// `TAG=VALUE`, and SOH.
std::string field(std::uint32_t tag, Text value);
std::string field(std::uint32_t tag, std::uint64_t value);

// The sum of bytes, modulo 256.
unsigned sum_of(Text bytes);

// Three digits.
std::string three_digits(unsigned number);

// A body in a frame: BeginString (8), BodyLength (9) and CheckSum (10) around it.
std::string framed(Text body);

} // namespace session_model

#endif
