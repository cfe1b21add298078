// Writes a session note as a line of the log, and computes the running hashes of notes and of
// messages.
#ifndef GATEWAY_LOG_SESSION_NOTE_LINE_H
#define GATEWAY_LOG_SESSION_NOTE_LINE_H

#include "base/digest.h"
#include "session/session_note.h"

#include <cstdint>
#include <optional>
#include <string>
#include <string_view>
#include <vector>

namespace gateway {

// A session note with all that stands in its line: docs/RECOVERY.md has the form.
struct SessionNoteLine {
    std::string firm;
    std::uint32_t epoch = 0; // how often an operator had reset the session before it
    SessionNote said;
    std::uint32_t expected = 0;
    std::uint32_t had = 0;
    std::uint32_t given = 0; // messages of the venue that the session had been given,
    Digest hash{};           // and their running hash
    std::uint32_t last = 0;  // of a reset: the last place of an entry before it

    bool operator==(const SessionNoteLine &) const = default;
};

// Without a line feed.
std::string text_of(const SessionNoteLine &note);
// Nothing where text_of() writes no such line.
std::optional<SessionNoteLine> session_note_of(std::string_view line);

// The lines of a batch as one text, a line feed behind each; and the lines of such a text, each
// without it.
std::string joined_lines(const std::vector<std::string> &lines);
std::vector<std::string_view> lines_in(std::string_view text);

// The running hash of all notes once these lines, each with its line feed, are behind it.
Digest hash_of_notes(Digest before, std::string_view lines);
// The running hash of a firm's messages with one more, as its session keeps it.
Digest hash_of_message(const Digest &before, std::string_view frame);

} // namespace gateway

#endif
