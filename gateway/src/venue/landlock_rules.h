// What Landlock can forbid, by the kernel's version of it.
#ifndef GATEWAY_VENUE_LANDLOCK_RULES_H
#define GATEWAY_VENUE_LANDLOCK_RULES_H

#include <cstddef>
#include <cstdint>
#include <utility>

namespace gateway::landlock {

// What the headers of older systems lack of linux/landlock.h.
constexpr long create_ruleset = 444;
constexpr long add_rule = 445;
constexpr long restrict_self = 446;
constexpr unsigned ask_version = 1;
constexpr int path_beneath = 1;

constexpr std::uint64_t execute = 1U << 0;
constexpr std::uint64_t write_file = 1U << 1;
constexpr std::uint64_t read_file = 1U << 2;
constexpr std::uint64_t read_dir = 1U << 3;

struct Ruleset {
    std::uint64_t files = 0;
    std::uint64_t network = 0;
    std::uint64_t scopes = 0;
};

struct [[gnu::packed]] Beneath {
    std::uint64_t allowed = 0;
    std::int32_t folder = -1;
};

// All that a kernel of this version can forbid, and how long what it reads of that is.
std::pair<Ruleset, std::size_t> all_of(long version);

} // namespace gateway::landlock

#endif
