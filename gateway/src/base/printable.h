// Makes a stranger's text safe for a line of the operator's and for a row of the log.
#ifndef GATEWAY_BASE_PRINTABLE_H
#define GATEWAY_BASE_PRINTABLE_H

#include <string>
#include <string_view>

namespace gateway {

// The first bytes of a text, `most` of them. SOH is a bar, a quotation mark an apostrophe, so that
// it can stand between quotation marks, and every other byte that is no printable ASCII a question
// mark. Of a text that is longer the last three bytes are dots.
std::string printable(std::string_view text, std::size_t most);

} // namespace gateway

#endif
