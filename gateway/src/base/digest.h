// SHA-256 of bytes.
#ifndef GATEWAY_BASE_DIGEST_H
#define GATEWAY_BASE_DIGEST_H

#include <array>
#include <optional>
#include <string>
#include <string_view>

namespace gateway {

using Digest = std::array<unsigned char, 32>;

Digest sha256(std::string_view bytes);

// Small hexadecimal digits.
std::string text_of(const Digest &digest);
// Reads what text_of wrote, and nothing else.
std::optional<Digest> digest_of(std::string_view digits);

} // namespace gateway

#endif
