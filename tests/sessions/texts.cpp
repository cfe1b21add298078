#include "texts.h"

#include <algorithm>
#include <cstdio>
#include <numeric>

namespace sessions {

namespace {

constexpr char SOH = '\x01';
constexpr std::size_t CHECK_SUM = 7; // the length of `10=ccc`, SOH

// Where the value of the first field with a tag begins, or npos.
std::size_t place_of(const std::string &frame, int tag) {
    const std::string name = std::to_string(tag) + "=";
    if (frame.compare(0, name.size(), name) == 0) {
        return name.size();
    }
    const std::size_t at = frame.find(SOH + name);
    return at == std::string::npos ? at : at + 1 + name.size();
}

} // namespace

std::string field(int tag, const std::string &value) {
    return std::to_string(tag) + "=" + value + SOH;
}

std::string framed(const std::string &body) {
    std::string frame = field(8, "FIXT.1.1") + field(9, std::to_string(body.size())) + body;
    const unsigned sum = std::accumulate(frame.begin(), frame.end(), 0U, [](unsigned all, char c) {
        return all + static_cast<unsigned char>(c);
    });
    char digits[8];
    std::snprintf(digits, sizeof digits, "%03u", sum % 256);
    return frame + field(10, digits);
}

std::string body_of(const std::string &frame) {
    const std::size_t length = frame.find(SOH);
    const std::size_t begin = frame.find(SOH, length + 1) + 1;
    return frame.substr(begin, frame.size() - begin - CHECK_SUM);
}

std::string value_of(const std::string &frame, int tag) {
    const std::size_t at = place_of(frame, tag);
    return at == std::string::npos ? std::string() : frame.substr(at, frame.find(SOH, at) - at);
}

bool has_tag(const std::string &frame, int tag) {
    return place_of(frame, tag) != std::string::npos;
}

std::string seen(std::string frame) {
    std::replace(frame.begin(), frame.end(), SOH, '|');
    return frame;
}

} // namespace sessions
