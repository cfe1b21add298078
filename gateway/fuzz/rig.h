// What the fuzzer runs: two firms' sessions, and the connections that bring it its input.
#ifndef GATEWAY_FUZZ_RIG_H
#define GATEWAY_FUZZ_RIG_H

#include "script.h"

#include <string>
#include <vector>

namespace gateway::fuzz {

// Whether the passwords are those of the seeds, or ones that no input has.
enum class Password { given, withheld };

// How many bytes come with one read.
enum class Cut { whole, short_pieces };

// Runs connections on sessions of their own, and aborts, with what was wrong on standard error,
// where something is accepted, sent, stored, counted or told for a firm without a Logon on that
// connection with the right password, or after the connection has ended. Returns what was done for
// firms, a line each: it is the same however the bytes are cut.
std::string run_connections(const std::vector<Bytes> &connections, Password password, Cut cut);

} // namespace gateway::fuzz

#endif
