// Reads a message a second time, by docs/FORMATS.md alone: the fuzzer asks it about each message
// that a session accepted.
#ifndef GATEWAY_FUZZ_STRICT_H
#define GATEWAY_FUZZ_STRICT_H

#include <cstdint>
#include <string>
#include <vector>

namespace gateway::fuzz {

// Why bytes are no message of the firm's application under its next number; empty where they are
// one.
std::string fault_of_accepted(const std::string &bytes, const std::string &firm,
                              std::uint32_t next);

// Whether bytes are a frame that is a Logon with these credentials.
bool is_logon_of(const std::string &bytes, const std::string &firm, const std::string &password);

// A body in its frame.
std::string framed(const std::string &body);

// The messages that stand one behind the other in bytes of the gateway's own.
std::vector<std::string> messages_in(const std::string &bytes);

// The value of the first field with a tag; empty without one.
std::string value_in(const std::string &message, std::uint32_t tag);

// What stands behind the header of a message of the gateway's, up to its sum.
std::string behind_header(const std::string &message);

} // namespace gateway::fuzz

#endif
