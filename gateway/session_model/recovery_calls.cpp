// Implements the calls of session_recovery.h with the second implementation.
#include "recovered.h"

#include "recovery/session_recovery.h"

#include <cstring>

namespace {

using session_model::NotRecovered;
using session_model::RecoveredNote;
using session_model::RecoveredNumbers;

session_model::Hash hash_of(const RunningHash &hash) {
    session_model::Hash bytes{};
    static_assert(sizeof bytes == sizeof hash);
    std::memcpy(bytes.data(), &hash, sizeof hash);
    return bytes;
}

RunningHash hash_of(const session_model::Hash &bytes) {
    RunningHash hash{};
    std::memcpy(&hash, bytes.data(), sizeof hash);
    return hash;
}

RecoveredNumbers numbers_of(const Recovered &at) {
    RecoveredNumbers numbers;
    numbers.epoch = at.epoch;
    numbers.since = at.since;
    numbers.act = at.act;
    numbers.given = at.given;
    numbers.hash = hash_of(at.hash);
    numbers.taken = at.taken;
    numbers.expected = at.day.expected;
    numbers.next = at.day.next;
    numbers.had = at.day.had;
    numbers.first_given = at.day.first_given;
    numbers.last_given = at.day.last_given;
    numbers.last_kept = at.day.last_kept;
    numbers.is_one_free = at.day.is_one_free;
    numbers.was_taken = at.day.was_taken;
    numbers.is_reset = at.day.is_reset;
    numbers.reset_at = at.day.reset_at;
    numbers.is_locked = at.day.is_locked;
    numbers.last_logon = at.day.last_logon;
    return numbers;
}

Recovered recovered_of(const RecoveredNumbers &numbers) {
    Day day{};
    day.expected = numbers.expected;
    day.next = numbers.next;
    day.had = numbers.had;
    day.first_given = numbers.first_given;
    day.last_given = numbers.last_given;
    day.last_kept = numbers.last_kept;
    day.is_one_free = numbers.is_one_free;
    day.was_taken = numbers.was_taken;
    day.is_reset = numbers.is_reset;
    day.reset_at = numbers.reset_at;
    day.is_locked = numbers.is_locked;
    day.last_logon = numbers.last_logon;
    return {numbers.epoch,         numbers.since, numbers.act, numbers.given,
            hash_of(numbers.hash), numbers.taken, day};
}

RecoveredNote note_of(const NoteNumbers &said) {
    RecoveredNote note;
    note.kind = static_cast<char>(said.kind);
    note.epoch = said.epoch;
    note.number = said.number;
    note.expected = said.expected;
    note.had = said.had;
    note.given = said.given;
    note.hash = hash_of(said.hash);
    note.moment = said.moment;
    note.last_logon = said.last_logon;
    note.resets = said.resets;
    note.is_locked = said.is_locked;
    note.last = said.last;
    note.act = said.act;
    return note;
}

// Takes it on by one step, or leaves it as it was.
template <typename Step> std::uint32_t stepped(Recovered *at, Step step) {
    RecoveredNumbers numbers = numbers_of(*at);
    try {
        step(numbers);
    } catch (const NotRecovered &fault) {
        return fault.code;
    }
    *at = recovered_of(numbers);
    return recovery_goes_on;
}

} // namespace

void session_recovery_begin(Recovered *at) {
    *at = recovered_of(RecoveredNumbers{});
}

std::uint32_t session_recovery_message(Recovered *at, const RunningHash *hash) {
    return stepped(at, [&](RecoveredNumbers &numbers) { after_message(numbers, hash_of(*hash)); });
}

std::uint32_t session_recovery_note(Recovered *at, const NoteNumbers *note, std::uint64_t copies) {
    return stepped(at,
                   [&](RecoveredNumbers &numbers) { after_note(numbers, note_of(*note), copies); });
}

std::uint32_t session_recovery_entry(Recovered *at, std::uint64_t place, std::uint64_t number) {
    return stepped(at, [&](RecoveredNumbers &numbers) { after_entry(numbers, {place, number}); });
}
