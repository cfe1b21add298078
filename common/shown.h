// What people are shown of bytes that somebody has sent.
#ifndef GATEWAY_SHOWN_H
#define GATEWAY_SHOWN_H

#include <string>
#include <string_view>

namespace gateway {

// Characters of one line: SOH is a bar; any other control character, and each byte that is no
// UTF-8, a question mark.
std::string shown(std::string_view bytes);

} // namespace gateway

#endif
