// Writes the messages that the gateway sends to the venue in a firm's name, if the firm is gone or
// an operator has suspended it.
#ifndef GATEWAY_FIRMS_ON_BEHALF_H
#define GATEWAY_FIRMS_ON_BEHALF_H

#include <string>
#include <string_view>

namespace gateway {

// Whose message it is: number is that of 34, and moment that of 52, with its date.
struct Author {
    std::string_view firm;
    std::string_view trader; // 50
    unsigned number = 0;
    std::string_view moment;
};

// The cancel of all quotes (35=Z, 298=4) of a dealer.
std::string cancel_of_all(const Author &author);

// The cancel of one (35=Z, 298=5), by its name (117).
std::string cancel_of(const Author &author, std::string_view quote);

// The pass (35=AJ, 694=6) on a request (131) of an investor. Its 693 begins with `gateway-`.
std::string pass_of(const Author &author, std::string_view request);

} // namespace gateway

#endif
