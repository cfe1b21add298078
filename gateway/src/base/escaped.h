// Writes any bytes as printable ASCII, and reads that back.
#ifndef GATEWAY_BASE_ESCAPED_H
#define GATEWAY_BASE_ESCAPED_H

#include <optional>
#include <string>
#include <string_view>

namespace gateway {

// Every byte that is no printable ASCII, a quotation mark and a backslash stand as \xHH.
std::string escaped(std::string_view bytes);
// Reads what escaped() wrote, and nothing else.
std::optional<std::string> unescaped(std::string_view text);

} // namespace gateway

#endif
