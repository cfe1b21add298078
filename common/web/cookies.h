// Reads cookies in a request and writes them in a response, as RFC 6265 has them.
#ifndef WEB_COOKIES_H
#define WEB_COOKIES_H

#include <chrono>
#include <map>
#include <string>
#include <string_view>

namespace web {

using Cookies = std::map<std::string, std::string, std::less<>>;

// Of a name that is given twice, none: one of them was set by somebody else.
Cookies cookies_of(std::string_view header);

// A Set-Cookie that no script can read and that no other site's page sends. Age 0 removes it.
std::string set_cookie(std::string_view name, std::string_view value, std::chrono::seconds age,
                       bool has_tls);

} // namespace web

#endif
