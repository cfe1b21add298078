// What the venue notes beside its messages: why it refuses one, and which trade one tells of.
#ifndef GATEWAY_LOG_REASONS_H
#define GATEWAY_LOG_REASONS_H

#include <cstdint>
#include <functional>
#include <map>
#include <optional>
#include <string>
#include <string_view>
#include <vector>

namespace gateway {

// The words for each name of a reason.
using Reasons = std::map<std::string, std::string, std::less<>>;

// Puts a name and its words there. Throws std::runtime_error where they are not of their form: a
// name has 1 to 40 letters; the words have 1 to 100 bytes of printable ASCII, and no vertical bar.
// Throws too where the name is there already, or another name has these words.
void add_reason(Reasons &reasons, std::string_view name, std::string_view words);

// Reads lines `NAME WORDS`; one that is empty or begins with `#` is skipped. Throws as
// add_reason().
Reasons read_reasons(std::string_view text);

// The text of fix/reasons.txt, and what it says.
const char *reasons_text();
const Reasons &built_in_reasons();

// A note beside a message: a line `why FIRM N NAME` or `trade FIRM N DATE-INVESTOR-DEALER-K`.
struct VenueNote {
    enum class Kind { why, trade };
    Kind kind = Kind::why;
    std::string firm;
    std::uint32_t number = 0; // the venue's, of the message
    std::string name;
};

// Whether a line of the venue begins as a note. No firm's name is in small letters.
bool is_venue_note(std::string_view line);
// Reads one. Throws std::runtime_error where it is of another form.
VenueNote read_venue_note(std::string_view line);

// The field that tells a firm of a note beside the message of this number, as TAG=VALUE: Text (58),
// or TradeID (1003). Throws std::runtime_error where the note is that of
// another message, where the day has no such reason, and where the trade is none of this firm's on
// this date (eight digits).
std::string told_by(const VenueNote &note, std::string_view firm, std::uint32_t number,
                    const Reasons &reasons, std::string_view date);

// The words that start the venue's program, with the flag for notes or without it, whichever they
// have.
std::vector<std::string> with_notes(std::vector<std::string> command, bool notes);

} // namespace gateway

#endif
