// Says which version and commit the program is.
#ifndef GATEWAY_VERSION_H
#define GATEWAY_VERSION_H

#include <string>

namespace gateway {

// `mireseason-gateway 1.1.0 (COMMIT)`: the file VERSION, and the commit that it was built from,
// with a `+` behind it where files differed from that; `unknown` where the build knew none. Behind
// these `, sessions not proved: model` where it was built with the second implementation.
std::string version_text();

// Whether the firms' sessions are those of the proved library.
bool are_sessions_proved();

} // namespace gateway

#endif
