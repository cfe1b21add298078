// One request and its answer, as a site sees them.
#ifndef WEB_EXCHANGE_H
#define WEB_EXCHANGE_H

#include <functional>
#include <map>
#include <string>
#include <utility>
#include <vector>

namespace web {

enum class Method { get, post, other };

struct Request {
    Method method = Method::other;
    std::string path; // without a query
    std::string body;
    std::string content_type;
    std::string address; // of the peer, without its port
    std::string if_none_match;
    std::string authorization;
    std::map<std::string, std::string, std::less<>> cookies;
};

struct Response {
    unsigned status = 200;
    std::string content_type = "text/plain; charset=utf-8";
    std::string body;
    std::vector<std::pair<std::string, std::string>> headers;
};

// Sends the answer. To be called once, by the server's thread; where the peer is gone by then,
// nothing happens.
using Reply = std::function<void(Response)>;

} // namespace web

#endif
