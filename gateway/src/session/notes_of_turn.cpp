#include "session/notes_of_turn.h"

#include "session/own_fields.h"

#include <algorithm>
#include <string>
#include <string_view>

namespace gateway {

namespace {

// MsgType (35) of the messages of a session's own that use a number.
constexpr std::string_view own_types = "A01235j";

// Of a frame: what stands between 35 and 10, each field with its SOH.
std::string_view fields_behind_type(std::string_view frame) {
    constexpr std::size_t trailer = std::string_view("10=000|").size();
    const std::size_t type = frame.find(own_fields::msg_type);
    const std::size_t begin = type == std::string_view::npos ? type : frame.find('\x01', type + 1);
    if (begin == std::string_view::npos || frame.size() < begin + 1 + trailer) {
        return {};
    }
    return frame.substr(begin + 1, frame.size() - trailer - begin - 1);
}

bool is_kept_kind(char kind) {
    return kind == '3' || kind == 'j';
}

// Whether a message under this number has it for the first time: one that leaves again, and one
// that waited, has a number below the next one.
bool is_new(const Machine &machine, std::uint64_t number, char kind) {
    const bool may_be_first = kind == 'A' || kind == '5';
    return number >= machine.numbers().next || (number == 1 && may_be_first);
}

// Of one message of a turn, whose bytes these are.
void add(std::vector<SessionNote> &notes, const Machine &machine, std::uint64_t number,
         std::string_view frame, std::uint32_t moment) {
    const std::string_view type = own_fields::value_in(frame, own_fields::msg_type);
    if (type.size() != 1 || own_types.find(type) == std::string_view::npos ||
        !is_new(machine, number, type.front())) {
        return;
    }
    SessionNote note;
    note.kind = type.front();
    note.number = static_cast<std::uint32_t>(number);
    note.moment = moment;
    if (note.kind == 'A') {
        note.last_logon = machine.next_numbers().last_logon;
        note.resets = machine.turn().told.drops_rejects;
    }
    if (is_kept_kind(note.kind)) {
        note.fields = fields_behind_type(machine.turn().kept);
    }
    notes.push_back(std::move(note));
}

} // namespace

std::vector<SessionNote> notes_of_turn(const Machine &machine, std::uint32_t moment) {
    const MachineTurn &turn = machine.turn();
    const SessionNumbers before = machine.numbers();
    const SessionNumbers after = machine.next_numbers();
    std::vector<SessionNote> notes;
    if (after.is_locked && !before.is_locked) {
        SessionNote &note = notes.emplace_back();
        note.kind = session_notes::lock;
        note.moment = moment;
        note.is_locked = true;
    }
    const std::string_view first = turn.first.empty() ? turn.kept : turn.first;
    add(notes, machine, turn.told.first.number, first, moment);
    add(notes, machine, turn.told.second.number, turn.second, moment);
    if (after.expected > SessionNumbers::last && before.expected <= SessionNumbers::last) {
        notes.emplace_back().moment = moment;
    }
    return notes;
}

std::size_t replies_in(const std::vector<SessionNote> &notes, const Machine &machine) {
    std::string kinds = "023j";
    if (machine.state().line.first_test > 0) {
        kinds += '1';
    }
    if (machine.is_away()) {
        kinds += '5';
    }
    return static_cast<std::size_t>(std::ranges::count_if(notes, [&](const SessionNote &note) {
        return kinds.find(note.kind) != std::string::npos;
    }));
}

} // namespace gateway
