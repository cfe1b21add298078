#include "cookies.h"

#include <set>

namespace web {

namespace {

std::string_view trimmed(std::string_view text) {
    while (!text.empty() && text.front() == ' ') {
        text.remove_prefix(1);
    }
    return text;
}

} // namespace

Cookies cookies_of(std::string_view header) {
    Cookies cookies;
    std::set<std::string, std::less<>> twice;
    while (!header.empty()) {
        const std::size_t end = header.find(';');
        const std::string_view part = trimmed(header.substr(0, end));
        header.remove_prefix(end == std::string_view::npos ? header.size() : end + 1);
        const std::size_t equals = part.find('=');
        if (equals == std::string_view::npos) {
            continue;
        }
        const std::string name(part.substr(0, equals));
        if (!cookies.emplace(name, part.substr(equals + 1)).second) {
            twice.insert(name);
        }
    }
    for (const std::string &name : twice) {
        cookies.erase(name);
    }
    return cookies;
}

std::string set_cookie(std::string_view name, std::string_view value, std::chrono::seconds age,
                       bool has_tls) {
    return std::string(name) + "=" + std::string(value) +
           "; Path=/; HttpOnly; SameSite=Strict; Max-Age=" + std::to_string(age.count()) +
           (has_tls ? "; Secure" : "");
}

} // namespace web
