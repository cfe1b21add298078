// Checks passwords against salted hashes, and makes such a hash.
#ifndef GATEWAY_PASSWORD_H
#define GATEWAY_PASSWORD_H

#include <string>

namespace gateway {

// Whether a password has this hash, as crypt(5) writes it. Takes as long as the hash asks for,
// whatever the answer is.
bool has_hash(const std::string &password, const std::string &hash);

// What of a hash says how long it takes: its method and its cost, all that stands before its salt.
std::string setting_of(const std::string &hash);

// Whether a text is a hash that any password can have.
bool is_hash(const std::string &text);

// The hash of a password with a new salt. Throws std::runtime_error.
std::string new_hash(const std::string &password);

} // namespace gateway

#endif
