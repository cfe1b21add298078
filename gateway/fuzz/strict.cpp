#include "strict.h"

#include <algorithm>
#include <set>
#include <utility>
#include <vector>

namespace gateway::fuzz {

namespace {

using Fields = std::vector<std::pair<std::uint32_t, std::string>>;

constexpr char soh = '\x01';
constexpr std::size_t longest = 4096;

// At most once in a message.
const std::set<std::uint32_t> once = {34,  35, 49,  56,  52,  43,   97, 122, 50, 57,  553,
                                      554, 98, 108, 141, 789, 1137, 7,  16,  36, 112, 123};

// Of a resend alone, and not of its length.
const std::set<std::uint32_t> of_resend = {43, 97, 122};

bool is_digits(const std::string &text, std::size_t most) {
    return !text.empty() && text.size() <= most &&
           text.find_first_not_of("0123456789") == std::string::npos;
}

// 1 to 9 digits, the first of them no zero, and none of the frame's own.
bool is_tag(const std::string &text) {
    return is_digits(text, 9) && text[0] != '0' && text != "8" && text != "9" && text != "10";
}

// `10=`, the sum of all bytes in front in three digits, and SOH.
std::string trailer_of(const std::string &front) {
    unsigned sum = 0;
    for (const char byte : front) {
        sum += static_cast<unsigned char>(byte);
    }
    const std::string digits = std::to_string(sum % 256);
    return "10=" + std::string(3 - digits.size(), '0') + digits + soh;
}

// The body of a frame; empty where the bytes are none.
std::string body_of(const std::string &bytes) {
    const std::string begin = std::string("8=FIXT.1.1") + soh + "9=";
    const std::size_t end = bytes.find(soh, begin.size());
    if (bytes.compare(0, begin.size(), begin) != 0 || end == std::string::npos) {
        return {};
    }
    const std::string length = bytes.substr(begin.size(), end - begin.size());
    if (!is_digits(length, 6) || end + 1 + std::stoul(length) > bytes.size()) {
        return {};
    }
    const std::string front = bytes.substr(0, end + 1 + std::stoul(length));
    return bytes == front + trailer_of(front) ? front.substr(end + 1) : "";
}

// The fields of a frame's body; none where the bytes are no frame.
Fields fields_of(const std::string &bytes) {
    const std::string body = body_of(bytes);
    Fields found;
    for (std::size_t at = 0; at < body.size();) {
        const std::size_t end = body.find(soh, at);
        const std::size_t equals = body.find('=', at);
        if (end == std::string::npos || equals > end || !is_tag(body.substr(at, equals - at))) {
            return {};
        }
        found.emplace_back(static_cast<std::uint32_t>(std::stoul(body.substr(at, equals - at))),
                           body.substr(equals + 1, end - equals - 1));
        at = end + 1;
    }
    return found.empty() || found[0].first != 35 ? Fields{} : found;
}

std::string value_of(const Fields &fields, std::uint32_t tag) {
    const auto found = std::find_if(fields.begin(), fields.end(),
                                    [tag](const auto &field) { return field.first == tag; });
    return found == fields.end() ? "" : found->second;
}

// The first tag that may stand once and stands again; 0 without one.
std::uint32_t repeated(const Fields &fields) {
    std::set<std::uint32_t> seen;
    for (const auto &field : fields) {
        if (once.count(field.first) != 0 && !seen.insert(field.first).second) {
            return field.first;
        }
    }
    return 0;
}

std::size_t size_without_resend(const std::string &bytes, const Fields &fields) {
    std::size_t size = bytes.size();
    for (const auto &field : fields) {
        if (of_resend.count(field.first) != 0) {
            size -= std::to_string(field.first).size() + field.second.size() + 2;
        }
    }
    return size;
}

bool is_of_the_session(const std::string &type) {
    return type.size() == 1 && std::string("012345A").find(type) != std::string::npos;
}

} // namespace

std::string fault_of_accepted(const std::string &bytes, const std::string &firm,
                              std::uint32_t next) {
    const Fields fields = fields_of(bytes);
    if (fields.empty()) {
        return "no frame";
    }
    if (const std::uint32_t tag = repeated(fields); tag != 0) {
        return std::to_string(tag) + " stands again";
    }
    if (is_of_the_session(fields[0].second)) {
        return "a message of the session";
    }
    if (value_of(fields, 49) != firm || value_of(fields, 56) != "VENUE") {
        return "of or to another";
    }
    const std::string number = value_of(fields, 34);
    if (number.empty() || number.size() > 9 ||
        number.find_first_not_of("0123456789") != std::string::npos || std::stoul(number) != next) {
        return "not under the number " + std::to_string(next);
    }
    // The time stands still at nine.
    const std::string sent = value_of(fields, 52).substr(0, 17);
    if (value_of(fields, 43) != "Y" && (sent < "20250314-08:58:00" || sent > "20250314-09:02:00")) {
        return "sent at another time";
    }
    return size_without_resend(bytes, fields) > longest ? "too long" : "";
}

bool is_logon_of(const std::string &bytes, const std::string &firm, const std::string &password) {
    const Fields fields = fields_of(bytes);
    return !fields.empty() && repeated(fields) == 0 && fields[0].second == "A" &&
           value_of(fields, 49) == firm && value_of(fields, 56) == "VENUE" &&
           value_of(fields, 553) == firm && value_of(fields, 554) == password;
}

std::string framed(const std::string &body) {
    const std::string front =
        std::string("8=FIXT.1.1") + soh + "9=" + std::to_string(body.size()) + soh + body;
    return front + trailer_of(front);
}

std::vector<std::string> messages_in(const std::string &bytes) {
    const std::string trailer = std::string(1, soh) + "10=";
    std::vector<std::string> found;
    for (std::size_t at = 0; at < bytes.size();) {
        const std::size_t end = bytes.find(trailer, at);
        const std::size_t size = (end == std::string::npos ? bytes.size() : end + 8) - at;
        found.push_back(bytes.substr(at, size));
        at += size;
    }
    return found;
}

std::string value_in(const std::string &message, std::uint32_t tag) {
    return value_of(fields_of(message), tag);
}

std::string behind_header(const std::string &message) {
    static const std::set<std::uint32_t> header = {35, 49, 56, 34, 43, 52, 122, 97};
    std::string found;
    for (const auto &field : fields_of(message)) {
        if (!found.empty() || header.count(field.first) == 0) {
            found += std::to_string(field.first) + "=" + field.second + soh;
        }
    }
    return found;
}

} // namespace gateway::fuzz
