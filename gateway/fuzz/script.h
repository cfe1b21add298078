// The fuzzer's input as messages: the mutator can change each field by itself.
#ifndef GATEWAY_FUZZ_SCRIPT_H
#define GATEWAY_FUZZ_SCRIPT_H

#include <cstdint>
#include <string>
#include <vector>

namespace gateway::fuzz {

// Bytes that no message of the seeds has. At the first all connections end, and a new one begins;
// at the second a new one begins beside those that stand.
extern const std::string end_mark;
extern const std::string beside_mark;

// What one connection brings.
struct Bytes {
    std::string bytes;
    bool ends = true; // before the next one begins
};

// A message, or what stands in its place: fields without their SOH.
struct ScriptMessage {
    std::string mark; // of a connection that begins with it, or nothing
    std::vector<std::string> fields;
};

struct Script {
    std::vector<ScriptMessage> messages;
    bool is_cut = false; // the last field has no SOH
};

// Reads any bytes. written(read(bytes)) is `bytes`, but for a mark within a field's value.
Script script_of(const std::string &bytes);
std::string written(const Script &script);

// What each connection of these bytes brings, in their order.
std::vector<Bytes> connections_of(const std::string &bytes);

// The tag of a field, 0 where it has none.
std::uint32_t tag_of(const std::string &field);

// Puts the length (9) and the sum (10) that belong to a message into it, where it has these fields
// in their places or lacks them.
void seal(ScriptMessage &message);

} // namespace gateway::fuzz

#endif
