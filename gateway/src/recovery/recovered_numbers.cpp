#include "recovery/recovered_numbers.h"

#include <chrono>
#include <cstring>
#include <stdexcept>

#include <fmt/format.h>

namespace gateway {

namespace {

// Days from the beginning of the calendar to 1970.
constexpr std::int64_t days_before_1970 = 719'528;
constexpr std::uint64_t milliseconds_of_day = 24ULL * 60 * 60 * 1000;

std::uint32_t cut(std::uint64_t number) {
    return static_cast<std::uint32_t>(number);
}

RunningHash running_hash(const Digest &hash) {
    RunningHash running{};
    static_assert(sizeof running == sizeof hash);
    std::memcpy(&running, hash.data(), sizeof running);
    return running;
}

NoteNumbers numbers_of(const SessionNoteLine &line, std::uint64_t midnight) {
    const SessionNote &said = line.said;
    NoteNumbers note{};
    note.epoch = line.epoch;
    note.number = said.number;
    note.expected = line.expected;
    note.had = line.had;
    note.given = line.given;
    note.hash = running_hash(line.hash);
    note.moment = midnight + said.moment;
    note.last_logon = said.last_logon;
    note.last = line.last;
    note.act = said.act;
    note.kind = static_cast<unsigned char>(said.kind);
    note.resets = said.resets;
    note.is_locked = said.is_locked;
    return note;
}

const char *words_of(std::uint32_t fault) {
    switch (fault) {
    case recovery_other_epoch:
        return "it is of another epoch";
    case recovery_other_given:
        return "it speaks of other messages than the venue gives";
    case recovery_other_hash:
        return "the venue gives other messages than the session was given";
    case recovery_other_number:
        return "its number is not the one that is due";
    case recovery_had_falls:
        return "the firm had more before";
    case recovery_expected_falls:
        return "another number was expected before";
    case recovery_act_again:
        return "what it carries out was carried out before";
    case recovery_not_behind:
        return "its number is not behind that of the entry before";
    case recovery_too_far:
        return "it has a number beyond all that a session uses";
    default:
        return "it is none";
    }
}

void check(std::uint32_t fault) {
    if (fault != recovery_goes_on) {
        throw std::runtime_error(words_of(fault));
    }
}

} // namespace

std::uint64_t midnight_of_session(const std::string &date) {
    const std::chrono::year_month_day day(
        std::chrono::year(std::stoi(date.substr(0, 4))),
        std::chrono::month(static_cast<unsigned>(std::stoul(date.substr(4, 2)))),
        std::chrono::day(static_cast<unsigned>(std::stoul(date.substr(6, 2)))));
    const auto days = std::chrono::sys_days(day).time_since_epoch().count() + days_before_1970;
    return static_cast<std::uint64_t>(days) * milliseconds_of_day;
}

SessionNoteLine read_session_note(std::string_view line) {
    const auto note = session_note_of(line);
    if (!note) {
        throw std::runtime_error(fmt::format("this is no session note: {}", line));
    }
    return *note;
}

void take_message(Recovered &session, const Digest &hash) {
    const RunningHash with = running_hash(hash);
    check(session_recovery_message(&session, &with));
}

void take_note(Recovered &session, const SessionNoteLine &line, std::uint64_t midnight,
               std::uint64_t copies) {
    const NoteNumbers note = numbers_of(line, midnight);
    check(session_recovery_note(&session, &note, copies));
}

void take_entry(Recovered &session, std::uint32_t place, std::uint32_t number) {
    check(session_recovery_entry(&session, place, number));
}

// All of them are those of notes, which have no more bits.
SessionNumbers numbers_of(const Recovered &session) {
    const ::Day &day = session.day;
    SessionNumbers numbers;
    numbers.expected = cut(day.expected);
    numbers.next = cut(day.next);
    numbers.had = cut(day.had);
    numbers.first_given = cut(day.first_given);
    numbers.last_given = cut(day.last_given);
    numbers.last_kept = cut(day.last_kept);
    numbers.is_one_free = day.is_one_free;
    numbers.was_taken = day.was_taken;
    numbers.is_reset = day.is_reset;
    numbers.reset_at = day.reset_at;
    numbers.is_locked = day.is_locked;
    numbers.last_logon = day.last_logon;
    return numbers;
}

} // namespace gateway
