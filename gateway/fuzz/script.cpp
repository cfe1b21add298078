#include "script.h"

#include <algorithm>
#include <numeric>

namespace gateway::fuzz {

namespace {

constexpr char soh = '\x01';

bool begins(const std::string &text, const std::string &with) {
    return text.compare(0, with.size(), with) == 0;
}

// The mark at the begin of a field; empty without one.
std::string mark_of(const std::string &field) {
    for (const std::string &mark : {end_mark, beside_mark}) {
        if (begins(field, mark)) {
            return mark;
        }
    }
    return {};
}

// Takes the next text up to an SOH, or what is left.
std::string take_field(const std::string &bytes, std::size_t &at, bool &is_cut) {
    const std::size_t end = bytes.find(soh, at);
    is_cut = end == std::string::npos;
    const std::string field = bytes.substr(at, is_cut ? std::string::npos : end - at);
    at = is_cut ? bytes.size() : end + 1;
    return field;
}

void put_digits(std::string &field, const char *tag, std::size_t number, std::size_t width) {
    const std::string digits = std::to_string(number);
    field = tag + std::string(width > digits.size() ? width - digits.size() : 0, '0') + digits;
}

// All bytes of some fields, each with its SOH.
std::size_t size_of(const std::vector<std::string> &fields, std::size_t from, std::size_t to) {
    std::size_t size = 0;
    for (std::size_t at = from; at < to; ++at) {
        size += fields[at].size() + 1;
    }
    return size;
}

unsigned sum_of(const std::vector<std::string> &fields, std::size_t to) {
    unsigned sum = 0;
    for (std::size_t at = 0; at < to; ++at) {
        sum = std::accumulate(fields[at].begin(), fields[at].end(), sum + soh,
                              [](unsigned all, unsigned char byte) { return all + byte; });
    }
    return sum % 256;
}

} // namespace

const std::string end_mark = "\xff\xff";
const std::string beside_mark = "\xff\xfe";

Script script_of(const std::string &bytes) {
    Script script;
    std::size_t at = 0;
    while (at < bytes.size()) {
        std::string field = take_field(bytes, at, script.is_cut);
        const std::string mark = mark_of(field);
        field.erase(0, mark.size());
        const bool behind_trailer =
            !script.messages.empty() && begins(script.messages.back().fields.back(), "10=");
        if (script.messages.empty() || !mark.empty() || behind_trailer) {
            script.messages.push_back({mark, {}});
        }
        script.messages.back().fields.push_back(std::move(field));
    }
    return script;
}

std::string written(const Script &script) {
    std::string bytes;
    for (const ScriptMessage &message : script.messages) {
        bytes += message.mark;
        for (const std::string &field : message.fields) {
            bytes.append(field).push_back(soh);
        }
    }
    if (script.is_cut && !bytes.empty()) {
        bytes.pop_back();
    }
    return bytes;
}

std::vector<Bytes> connections_of(const std::string &bytes) {
    std::vector<Bytes> found;
    std::size_t from = 0;
    for (;;) {
        const std::size_t end = std::min(bytes.find(end_mark, from), bytes.find(beside_mark, from));
        const bool is_last = end == std::string::npos;
        found.push_back({bytes.substr(from, is_last ? end : end - from),
                         is_last || bytes.compare(end, end_mark.size(), end_mark) == 0});
        if (is_last) {
            return found;
        }
        from = end + end_mark.size();
    }
}

std::uint32_t tag_of(const std::string &field) {
    std::uint32_t tag = 0;
    std::size_t at = 0;
    while (at < field.size() && at < 9 && field[at] >= '0' && field[at] <= '9') {
        tag = tag * 10 + static_cast<std::uint32_t>(field[at++] - '0');
    }
    return at < field.size() && field[at] == '=' ? tag : 0;
}

void seal(ScriptMessage &message) {
    std::vector<std::string> &fields = message.fields;
    if (fields.size() < 2 || !begins(fields[0], "8=")) {
        return;
    }
    if (!begins(fields[1], "9=")) {
        fields.insert(fields.begin() + 1, "9=0");
    }
    if (!begins(fields.back(), "10=") || fields.size() < 3) {
        fields.push_back("10=000");
    }
    const std::size_t trailer = fields.size() - 1;
    put_digits(fields[1], "9=", size_of(fields, 2, trailer), 0);
    put_digits(fields[trailer], "10=", sum_of(fields, trailer), 3);
}

} // namespace gateway::fuzz
