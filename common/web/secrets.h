// Makes random tokens, hashes them to be kept, and compares them.
#ifndef WEB_SECRETS_H
#define WEB_SECRETS_H

#include <string>
#include <string_view>

namespace web {

// 256 bits of the system's randomness, as 64 hexadecimal digits. Throws std::runtime_error.
std::string new_secret();

// SHA-256 in hexadecimal digits: what of a secret is kept.
std::string digest_of(std::string_view secret);

// Takes as long wherever they differ.
bool are_equal(std::string_view one, std::string_view other);

} // namespace web

#endif
