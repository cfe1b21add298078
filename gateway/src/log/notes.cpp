#include "log/notes.h"

#include "base/escaped.h"

#include <algorithm>
#include <array>
#include <charconv>
#include <utility>

#include <fmt/format.h>

namespace gateway {

namespace {

// `# act HH:MM:SS.sss ` stands in front of an act's text.
constexpr std::size_t bytes_before_text = 19;

constexpr std::string_view reason_begins = "because=\"";
constexpr std::string_view as_configured = "configured";

std::string_view take_word(std::string_view &text) {
    const std::size_t end = std::min(text.find(' '), text.size());
    const std::string_view word = text.substr(0, end);
    text.remove_prefix(std::min(end + 1, text.size()));
    return word;
}

template <typename Number> std::optional<Number> number_in(std::string_view text) {
    Number number{};
    const auto [end, fault] = std::from_chars(text.data(), text.data() + text.size(), number);
    const bool is_number = fault == std::errc() && end == text.data() + text.size();
    return is_number ? std::optional(number) : std::nullopt;
}

} // namespace

// As much as a line has room for.
std::string text_of_gateway(std::string_view name, std::string_view version) {
    constexpr std::size_t bytes_before = std::string_view("# gateway HH:MM:SS.sss ").size();
    std::string word = escaped(name.substr(0, longest_note / 4));
    std::ranges::replace(word, ' ', '_');
    return fmt::format("{} {}", word, escaped(version)).substr(0, longest_note - bytes_before);
}

std::string text_of(const Act &act) {
    std::string text = act.who + " " + act.words;
    if (!act.because.empty()) {
        text += fmt::format(" {}{}\"", reason_begins, escaped(act.because));
    }
    if (const std::size_t size = bytes_before_text + text.size(); size > longest_note) {
        throw ActTooLong(fmt::format("the act's line in the log would have {} bytes, and may have "
                                     "{}: give a shorter reason",
                                     size, longest_note));
    }
    return text;
}

std::vector<std::string> texts_of(const std::vector<Act> &acts) {
    std::vector<std::string> texts;
    texts.reserve(acts.size());
    for (const Act &act : acts) {
        texts.push_back(text_of(act));
    }
    return texts;
}

std::string text_of(const KernelClock &sample) {
    return fmt::format("{} {}", sample.is_synchronised ? "synchronised" : "unsynchronised",
                       sample.greatest_error.count());
}

std::string text_of_step(std::chrono::microseconds step) {
    return fmt::format("set {}", step.count());
}

Entry note_entry(std::uint32_t place, std::uint32_t term, std::string_view kind,
                 std::string_view text, ExactMoment at) {
    Entry entry;
    entry.place = place;
    entry.term = term;
    entry.moment = text_of(at.cut());
    entry.received = text_of(at);
    entry.line = fmt::format("# {} {} {}", kind, entry.moment, text);
    return entry;
}

std::optional<Note> note_of(std::string_view line) {
    if (take_word(line) != "#") {
        return std::nullopt;
    }
    Note note;
    note.kind = take_word(line);
    take_word(line); // its moment
    while (!line.empty() && !line.starts_with(reason_begins)) {
        note.words.push_back(take_word(line));
    }
    return note;
}

std::optional<LimitSet> limit_in(const Note &note) {
    // WHO limit FIRM KEY=VALUE
    if (note.kind != note_kinds::act || note.words.size() != 4 || note.words[1] != "limit") {
        return std::nullopt;
    }
    const std::string_view setting = note.words[3];
    const std::size_t sign = setting.find('=');
    if (sign == std::string_view::npos) {
        return std::nullopt;
    }
    const std::string_view value = setting.substr(sign + 1);
    LimitSet set{std::string(note.words[2]), std::string(setting.substr(0, sign)), {}};
    set.value = number_in<std::uint64_t>(value);
    return set.value || value == as_configured ? std::optional(set) : std::nullopt;
}

std::optional<FirmOrdered> firm_order_in(const Note &note) {
    // WHO WORD FIRM
    static constexpr std::array<std::pair<std::string_view, FirmOrder>, 4> words = {{
        {"suspend", FirmOrder::suspend},
        {"resume", FirmOrder::resume},
        {"reset-session", FirmOrder::reset},
        {"release", FirmOrder::release},
    }};
    if (note.kind != note_kinds::act || note.words.size() != 3) {
        return std::nullopt;
    }
    for (const auto &[word, order] : words) {
        if (note.words[1] == word) {
            return FirmOrdered{std::string(note.words[2]), order, 0};
        }
    }
    return std::nullopt;
}

std::optional<HaltSet> halt_in(const Note &note) {
    // WHO halt, WHO resume, and both with `--bond ID`
    if (note.kind != note_kinds::act || note.words.size() < 2 ||
        (note.words[1] != "halt" && note.words[1] != "resume")) {
        return std::nullopt;
    }
    const bool is_halted = note.words[1] == "halt";
    if (note.words.size() == 2) {
        return HaltSet{{}, is_halted};
    }
    const bool is_of_bond = note.words.size() == 4 && note.words[2] == "--bond";
    return is_of_bond ? std::optional(HaltSet{std::string(note.words[3]), is_halted})
                      : std::nullopt;
}

std::optional<std::string> admitted_in(const Note &note) {
    // WHO admit FIRM UNTIL REPORT
    const bool is_admission =
        note.kind == note_kinds::act && note.words.size() == 5 && note.words[1] == "admit";
    return is_admission ? std::optional(std::string(note.words[2])) : std::nullopt;
}

std::optional<std::string> bust_in(const Note &note) {
    // WHO bust TRADE
    const bool is_bust =
        note.kind == note_kinds::act && note.words.size() == 3 && note.words[1] == "bust";
    return is_bust ? std::optional(std::string(note.words[2])) : std::nullopt;
}

DayEnd day_end_in(const Note &note) {
    // WHO end-day, or WHO end-day --now
    if (note.kind != note_kinds::act || note.words.size() < 2 || note.words[1] != "end-day") {
        return DayEnd::as_configured;
    }
    if (note.words.size() == 2) {
        return DayEnd::once_nothing_is_open;
    }
    return note.words.size() == 3 && note.words[2] == "--now" ? DayEnd::now : DayEnd::as_configured;
}

bool accepts_clock(const Note &note) {
    // WHO clock accept
    return note.kind == note_kinds::act && note.words.size() == 3 && note.words[1] == "clock" &&
           note.words[2] == "accept";
}

std::optional<std::chrono::microseconds> step_in(const Note &note) {
    if (note.kind != note_kinds::clock || note.words.size() != 2 || note.words[0] != "set") {
        return std::nullopt;
    }
    const auto by = number_in<std::int64_t>(note.words[1]);
    return by ? std::optional(std::chrono::microseconds(*by)) : std::nullopt;
}

} // namespace gateway
