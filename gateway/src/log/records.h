// The rows of the log, and their chain. schema.sql says what each column means.
#ifndef GATEWAY_LOG_RECORDS_H
#define GATEWAY_LOG_RECORDS_H

#include "base/digest.h"
#include "log/reasons.h"

#include <array>
#include <cstdint>
#include <limits>
#include <optional>
#include <string>
#include <string_view>

namespace gateway {

using Signature = std::array<unsigned char, 64>; // Ed25519

struct Entry {
    std::uint32_t place = 0;
    std::uint32_t term = 0;
    std::string moment;
    std::string received;
    std::optional<std::string> firm;
    std::optional<std::uint32_t> number;
    std::optional<std::uint32_t> connection;
    std::string line;
    Digest before{};
    Digest hash{};
};

// What happened to a connection.
struct ConnectionEvent {
    std::uint32_t place = 0;
    std::uint32_t term = 0;
    std::string moment;
    std::string event; // one of connection_events
    std::uint32_t entry = 0;
    std::optional<std::uint32_t> number;
    std::optional<std::string> firm;
    std::string address;
    std::optional<std::string> certificate;
    std::optional<std::string> why;
    std::uint32_t left_out = 0;
    Digest before{};
    Digest hash{};
};

// The events of the table `connection`.
namespace connection_events {
constexpr const char *logon = "logon";
constexpr const char *end = "end";
constexpr const char *refused = "refused";
constexpr const char *stranger = "stranger";
constexpr const char *left_out = "left out";
} // namespace connection_events

// A message that the venue gave a firm.
struct Sent {
    std::string firm;
    std::uint32_t number = 0;
    std::uint32_t place = 0;
    std::string bytes;
    std::optional<std::string> told; // TAG=VALUE
};

// The place of a log that has session notes and no entry yet: its day has not opened.
constexpr std::uint32_t before_day = std::numeric_limits<std::uint32_t>::max();

// In a column of the tables it is -1.
constexpr std::int64_t column_of_place(std::uint32_t place) {
    return place == before_day ? -1 : std::int64_t{place};
}

// Up to where a log goes: its last entry, the last row of `connection`, place 0 where there is none
// yet, and its last seal with the running hash of all session notes.
struct Position {
    std::uint32_t term = 0; // of the gateway that says so
    std::uint32_t place = 0;
    Digest hash{};
    std::uint32_t event = 0;
    Digest event_hash{};
    std::uint32_t seal = 0;
    Digest notes{};

    bool operator==(const Position &) const = default;
};

// A row of `seal`, whose number its position has. The hashes of its position are those of the rows
// that it names, and zeros where there is no such row.
struct Seal {
    Position at;
    Digest mac{};
    std::string notes{}; // the session notes of its batch, a line feed behind each
};

// A row of `checkpoint`, likewise.
struct Checkpoint {
    std::uint32_t number = 0;
    Position at;
    Signature before{};  // that of the checkpoint before; zeros where there is none
    bool is_end = false; // the day's log ends there
    Signature signature{};

    bool operator==(const Checkpoint &) const = default;
};

// The hash that a row must have, from its other columns.
Digest hash_of(const Entry &entry);
Digest hash_of(const ConnectionEvent &event);

// Holds an entry against the place that it must have and the hash of the one before it. Throws
// std::runtime_error that names the place.
void check_link(const Entry &entry, std::uint32_t place, const Digest &before);

// The line of place 0.
struct Day {
    std::string version;
    Digest program{};
    std::string configuration;
    std::string venue;     // its name, empty where it is the only one
    std::string gateway{}; // that began it, empty where it does not say what it is
    Reasons reasons{};     // none where the day gives neither reasons nor names of trades
};

std::string line_of(const Day &day);

// Reads what line_of wrote. Throws std::runtime_error where it is of another form, or where the
// configuration has another SHA-256 than it says.
Day day_of(std::string_view line);

} // namespace gateway

#endif
