// Reads session notes as the fold of docs/RECOVERY.md takes them, and gives the numbers that it
// finds.
#ifndef GATEWAY_RECOVERY_RECOVERED_NUMBERS_H
#define GATEWAY_RECOVERY_RECOVERED_NUMBERS_H

#include "log/session_note_line.h"
#include "recovery/session_recovery.h"
#include "session/session_numbers.h"

#include <cstdint>
#include <string>
#include <string_view>

namespace gateway {

// Of a day of this date (YYYYMMDD): its midnight, as times of a session are counted.
std::uint64_t midnight_of_session(const std::string &date);

// A line of session notes. Throws std::runtime_error where it is none.
SessionNoteLine read_session_note(std::string_view line);
// Take a session on by one step. Throw std::runtime_error that says what does not fit.
void take_message(Recovered &session, const Digest &hash);
void take_note(Recovered &session, const SessionNoteLine &line, std::uint64_t midnight,
               std::uint64_t copies);
void take_entry(Recovered &session, std::uint32_t place, std::uint32_t number);

SessionNumbers numbers_of(const Recovered &session);

} // namespace gateway

#endif
