// Days and moments: docs/SESSIONS.md, "A time".
#ifndef SESSION_MODEL_TIMES_H
#define SESSION_MODEL_TIMES_H

#include "bytes.h"

namespace session_model {

// Milliseconds.
constexpr std::uint64_t SECOND = 1'000;
constexpr std::uint64_t DAY = 86'400 * SECOND;

// A date: `YYYYMMDD`, any year, month 01 to 12, day 01 to 31.
bool is_date(Text text);

// A time that a field has.
struct Time {
    Text date;
    std::uint64_t moment = 0; // milliseconds of its day; a leap second is that of the next day
};

// A time as SendingTime (52) and OrigSendingTime (122) have it, cut to milliseconds.
std::optional<Time> time_in(Text text);

// When something happens: a day, and its milliseconds.
struct Clock {
    Text date;
    std::uint32_t moment = 0;
};

// As a session keeps it: the milliseconds since 1970, and those of 719,528 days.
std::uint64_t instant_of(const Time &time);
std::uint64_t instant_of(const Clock &clock);

// Whether a time is of a clock's day: the leap second behind its last minute is not.
bool is_of_day(const Time &time, const Clock &clock);

// `YYYYMMDD-HH:MM:SS.sss`
std::string written_time(Text date, std::uint32_t moment);

} // namespace session_model

#endif
