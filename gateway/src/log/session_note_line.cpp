#include "log/session_note_line.h"

#include "base/escaped.h"
#include "base/spaced_words.h"
#include "common/frame.h"
#include "common/moment.h"

#include <algorithm>
#include <charconv>
#include <utility>

#include <fmt/format.h>

namespace gateway {

namespace {

constexpr std::string_view kinds = "A01235jRLM";
constexpr std::string_view yes = "Y";
constexpr std::string_view no = "N";
constexpr std::string_view locked = "locked";
constexpr std::string_view released = "released";

// Bytes of all that stands in front of what may be long, and more.
constexpr std::size_t longest_head = 192;

bool has_fields(char kind) {
    return kind == '3' || kind == 'j';
}

// What stands behind the moment; empty where nothing does.
std::string more_of(const SessionNoteLine &note) {
    const SessionNote &said = note.said;
    if (said.kind == 'A') {
        return fmt::format("{} {}", said.last_logon, said.resets ? yes : no);
    }
    if (has_fields(said.kind)) {
        return escaped(said.fields);
    }
    if (said.kind == session_notes::reset) {
        return fmt::format("{} {}", note.last, said.act);
    }
    if (said.kind == session_notes::lock) {
        return said.is_locked ? std::string(locked) : fmt::format("{} {}", released, said.act);
    }
    return {};
}

std::string_view take_word(std::string_view &text) {
    const std::size_t end = std::min(text.find(' '), text.size());
    const std::string_view word = text.substr(0, end);
    text.remove_prefix(std::min(end + 1, text.size()));
    return word;
}

template <typename Number> bool take_number(std::string_view &text, Number &number) {
    const std::string_view word = take_word(text);
    const auto [end, fault] = std::from_chars(word.data(), word.data() + word.size(), number);
    return fault == std::errc() && end == word.data() + word.size();
}

// What stands in front of the moment, and the moment.
bool take_head(std::string_view &text, SessionNoteLine &note) {
    note.firm = take_word(text);
    bool is_one = take_number(text, note.epoch);
    const std::string_view kind = take_word(text);
    is_one = is_one && kind.size() == 1 && kinds.find(kind) != std::string_view::npos;
    note.said.kind = is_one ? kind.front() : session_notes::mark;
    is_one = is_one && take_number(text, note.said.number) && take_number(text, note.expected) &&
             take_number(text, note.had) && take_number(text, note.given);
    const auto hash = digest_of(take_word(text));
    const auto moment = moment_of(take_word(text));
    note.hash = hash.value_or(Digest{});
    note.said.moment = static_cast<std::uint32_t>(moment.value_or(Moment{}).milliseconds);
    return is_one && hash && moment;
}

bool take_more(std::string_view text, SessionNoteLine &note) {
    SessionNote &said = note.said;
    if (said.kind == 'A') {
        const bool is_one = take_number(text, said.last_logon);
        said.resets = text == yes;
        return is_one;
    }
    if (has_fields(said.kind)) {
        const auto fields = unescaped(text);
        said.fields = fields.value_or("");
        return said.fields.ends_with(soh);
    }
    if (said.kind == session_notes::reset) {
        return take_number(text, note.last) && take_number(text, said.act);
    }
    if (said.kind == session_notes::lock) {
        said.is_locked = take_word(text) == locked;
        return said.is_locked || take_number(text, said.act);
    }
    return true;
}

} // namespace

std::string text_of(const SessionNoteLine &note) {
    const SessionNote &said = note.said;
    const std::string more = more_of(note);
    SpacedWords line(longest_head + more.size());
    line.add(note.firm).add(note.epoch).add(said.kind).add(said.number);
    line.add(note.expected).add(note.had).add(note.given);
    line.add(text_of(note.hash)).add(text_of(Moment{static_cast<int>(said.moment)}));
    return more.empty() ? std::move(line).text() : std::move(line).with(' ', more);
}

// One line says one thing in one way: what is read has to be what would be written.
std::optional<SessionNoteLine> session_note_of(std::string_view line) {
    SessionNoteLine note;
    std::string_view rest = line;
    if (!take_head(rest, note) || !take_more(rest, note) || text_of(note) != line) {
        return std::nullopt;
    }
    return note;
}

std::string joined_lines(const std::vector<std::string> &lines) {
    std::string text;
    for (const std::string &line : lines) {
        text.append(line).append("\n");
    }
    return text;
}

std::vector<std::string_view> lines_in(std::string_view text) {
    std::vector<std::string_view> lines;
    while (!text.empty()) {
        const std::size_t end = std::min(text.find('\n'), text.size());
        lines.push_back(text.substr(0, end));
        text.remove_prefix(std::min(end + 1, text.size()));
    }
    return lines;
}

// Of a text that is no whole lines it is one that no notes have.
Digest hash_of_notes(Digest before, std::string_view lines) {
    if (!lines.empty() && !lines.ends_with('\n')) {
        return Digest{};
    }
    for (const std::string_view line : lines_in(lines)) {
        before = sha256(text_of(before).append(" ").append(line).append("\n"));
    }
    return before;
}

Digest hash_of_message(const Digest &before, std::string_view frame) {
    SpacedWords head(longest_head + frame.size());
    head.add(text_of(before)).add(frame.size());
    return sha256(std::move(head).with('\n', frame));
}

} // namespace gateway
