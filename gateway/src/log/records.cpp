#include "log/records.h"

#include "base/spaced_words.h"

#include <stdexcept>
#include <utility>

#include <fmt/format.h>

namespace gateway {

namespace {

// Takes `NAME VALUE` and its line feed off the front of the text.
std::string_view take_line(std::string_view &text, std::string_view name) {
    const std::size_t end = text.find('\n');
    const std::string_view line = text.substr(0, end);
    if (end == std::string_view::npos || !line.starts_with(name) || line.size() <= name.size() ||
        line[name.size()] != ' ') {
        throw std::runtime_error(fmt::format("entry 0 has no line `{}`", name));
    }
    text.remove_prefix(end + 1);
    return line.substr(name.size() + 1);
}

Digest digest_of_day(std::string_view digits) {
    const auto digest = digest_of(digits);
    if (!digest) {
        throw std::runtime_error("entry 0: a SHA-256 has 64 small hexadecimal digits");
    }
    return *digest;
}

std::string or_dash(const std::optional<std::uint32_t> &number) {
    return number ? std::to_string(*number) : "-";
}

// Bytes of all that is hashed in front of an entry's line, and more.
constexpr std::size_t longest_head = 192;

constexpr std::string_view end_of_head = "%%\n";
constexpr std::string_view gateway_line = "gateway";
constexpr std::string_view reason_line = "reason";

// For a venue that is the only one.
constexpr std::string_view no_name = "-";

} // namespace

Digest hash_of(const Entry &entry) {
    SpacedWords head(longest_head + entry.line.size());
    head.add(text_of(entry.before)).add(entry.place).add(entry.term);
    head.add(entry.moment).add(entry.received);
    head.add(entry.firm ? std::string_view(*entry.firm) : "-");
    head.add(or_dash(entry.number)).add(or_dash(entry.connection)).add(entry.line.size());
    return sha256(std::move(head).with('\n', entry.line));
}

Digest hash_of(const ConnectionEvent &event) {
    const auto length = [](const std::optional<std::string> &text) {
        return text ? std::to_string(text->size()) : "-";
    };
    std::string text = fmt::format(
        "{} {} {} {} {} {} {} {} {} {} {} {}\n", text_of(event.before), event.place, event.term,
        event.moment, event.entry, or_dash(event.number), event.firm.value_or("-"), event.left_out,
        event.event.size(), event.address.size(), length(event.certificate), length(event.why));
    text += event.event + event.address + event.certificate.value_or("") + event.why.value_or("");
    return sha256(text);
}

void check_link(const Entry &entry, std::uint32_t place, const Digest &before) {
    // What stands in front of the place.
    const auto front = [place] {
        return place == 0 ? "the begin" : fmt::format("entry {}", place - 1);
    };
    if (entry.place != place) {
        throw std::runtime_error(fmt::format("the log has no entry {}: after {} comes entry {}",
                                             place, front(), entry.place));
    }
    if (entry.before != before) {
        throw std::runtime_error(
            fmt::format("entry {} does not follow on {} as it is now", place, front()));
    }
    if (entry.hash != hash_of(entry)) {
        throw std::runtime_error(fmt::format("entry {} was changed: its hash is another", place));
    }
}

std::string line_of(const Day &day) {
    std::string line =
        fmt::format("venue {}\nversion {}\n", day.venue.empty() ? no_name : day.venue, day.version);
    if (!day.gateway.empty()) {
        line += fmt::format("{} {}\n", gateway_line, day.gateway);
    }
    line += fmt::format("program {}\nconfiguration {}\n", text_of(day.program),
                        text_of(sha256(day.configuration)));
    for (const auto &[name, words] : day.reasons) {
        line += fmt::format("{} {} {}\n", reason_line, name, words);
    }
    return line.append(end_of_head).append(day.configuration);
}

Day day_of(std::string_view line) {
    Day day;
    day.venue = take_line(line, "venue");
    if (day.venue == no_name) {
        day.venue.clear();
    }
    day.version = take_line(line, "version");
    if (line.starts_with(gateway_line)) {
        day.gateway = take_line(line, gateway_line);
    }
    day.program = digest_of_day(take_line(line, "program"));
    const Digest configuration = digest_of_day(take_line(line, "configuration"));
    while (line.starts_with(reason_line)) {
        const std::string_view reason = take_line(line, reason_line);
        const std::size_t end = reason.find(' ');
        add_reason(day.reasons, reason.substr(0, end),
                   end == std::string_view::npos ? "" : reason.substr(end + 1));
    }
    if (!line.starts_with(end_of_head)) {
        throw std::runtime_error("entry 0 has no line `%%`");
    }
    day.configuration = line.substr(end_of_head.size());
    if (sha256(day.configuration) != configuration) {
        throw std::runtime_error("entry 0 was changed: its configuration has another SHA-256");
    }
    return day;
}

} // namespace gateway
