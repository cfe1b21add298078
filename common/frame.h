// Reads frames of FIXT.1.1 as bytes: fields in their order, with every byte.
#ifndef GATEWAY_FRAME_H
#define GATEWAY_FRAME_H

#include <cstddef>
#include <optional>
#include <string>
#include <string_view>
#include <vector>

namespace gateway {

inline constexpr char soh = '\x01';

// The longest frame that the venue reads.
inline constexpr std::size_t longest_frame = 4096;

// A field of a message: views of the bytes that it was read from.
struct Field {
    std::string_view tag;
    std::string_view value;
};

// All fields of a message, the first to the last, 8, 9 and 10 among them; nothing where a field has
// no equal sign or the bytes do not end in SOH.
std::optional<std::vector<Field>> fields_of(std::string_view message);

// The first value of a tag among the fields, or nothing.
std::optional<std::string_view> value_of(const std::vector<Field> &fields, std::string_view tag);

// The value of the first field with this tag, in a frame that the gateway or the venue has made;
// empty without one. BeginString (8) is not found.
std::string_view value_in(std::string_view frame, std::string_view tag);

// A body in its frame: 8, 9, the body, 10.
std::string framed(std::string_view body);

// Puts capital hexadecimal digits behind a text, two a byte.
void append_hexadecimal(std::string &text, std::string_view bytes);

// The frame of a line of the log, `hex FIRM MOMENT DIGITS`; empty where it is another one.
std::string frame_of_line(std::string_view line);

// A number of digits alone, below 2^31; nothing where it is none.
std::optional<unsigned> number_of(std::string_view text);

} // namespace gateway

#endif
