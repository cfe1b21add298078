// Lines of the log that the venue ignores: what operators did, and how the machine's clock was.
#ifndef GATEWAY_LOG_NOTES_H
#define GATEWAY_LOG_NOTES_H

#include "common/moment.h"
#include "health/clock_watch.h"
#include "log/day_end.h"
#include "log/records.h"

#include <chrono>
#include <cstddef>
#include <cstdint>
#include <optional>
#include <stdexcept>
#include <string>
#include <string_view>
#include <vector>

namespace gateway {

// A note is an entry of no firm whose line is `# KIND MOMENT TEXT`: schema.sql says which there
// are. It is printable ASCII, and has no more bytes than this.
constexpr std::size_t longest_note = 200;

namespace note_kinds {
constexpr std::string_view act = "act";
constexpr std::string_view clock = "clock";
constexpr std::string_view gateway = "gateway";
} // namespace note_kinds

// An act whose line would be too long.
class ActTooLong : public std::runtime_error {
  public:
    using std::runtime_error::runtime_error;
};

// What an operator does. Its words have no spaces and no quotation marks but those of the reason.
struct Act {
    std::string who; // NAME(UID)
    std::string words;
    std::string because; // a reason, which may have any bytes; empty without one
};

// The text of its note: WHO WORDS, and the reason as because="..", where every byte that is no
// printable ASCII, a quotation mark and a backslash stand as \xHH. Throws ActTooLong.
std::string text_of(const Act &act);
std::vector<std::string> texts_of(const std::vector<Act> &acts);

// The text of the notes about the clock: `synchronised ERROR` or `unsynchronised ERROR`, and
// `set BY`, all in microseconds.
std::string text_of(const KernelClock &sample);
std::string text_of_step(std::chrono::microseconds step);

// The text of the note by which a gateway says that it speaks: its name, and what it says with
// --version.
std::string text_of_gateway(std::string_view name, std::string_view version);

// A note's entry, without its hashes.
Entry note_entry(std::uint32_t place, std::uint32_t term, std::string_view kind,
                 std::string_view text, ExactMoment at);

// What a line says, in words; the moment is left out, and a reason ends them.
struct Note {
    std::string_view kind;
    std::vector<std::string_view> words;
};
std::optional<Note> note_of(std::string_view line);

// What notes set. Each is nothing where the note is another one.
struct LimitSet {
    std::string firm;
    std::string key;
    std::optional<std::uint64_t> value; // nothing: as it is configured
};
std::optional<LimitSet> limit_in(const Note &note);
bool accepts_clock(const Note &note);
// What is ordered of a firm's session.
enum class FirmOrder { suspend, resume, reset, release };
struct FirmOrdered {
    std::string firm;
    FirmOrder order = FirmOrder::release;
    std::uint32_t place = 0; // of the act among the entries, where it is known
};
std::optional<FirmOrdered> firm_order_in(const Note &note);
// A bond that is halted, or goes on; empty for the whole venue.
struct HaltSet {
    std::string bond;
    bool is_halted = false;
};
std::optional<HaltSet> halt_in(const Note &note);
// The firm of which it admits a report.
std::optional<std::string> admitted_in(const Note &note);
// The trade that it voids.
std::optional<std::string> bust_in(const Note &note);
// The end of the day that it orders; as_configured where it orders none.
DayEnd day_end_in(const Note &note);
std::optional<std::chrono::microseconds> step_in(const Note &note);

} // namespace gateway

#endif
