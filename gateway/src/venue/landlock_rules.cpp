#include "venue/landlock_rules.h"

namespace gateway::landlock {

std::pair<Ruleset, std::size_t> all_of(long version) {
    Ruleset rules;
    rules.files = (1U << 13) - 1;
    rules.files |= version >= 2 ? 1U << 13 : 0; // to move files between folders
    rules.files |= version >= 3 ? 1U << 14 : 0; // to cut them
    rules.files |= version >= 5 ? 1U << 15 : 0; // to control devices
    rules.network = version >= 4 ? 3 : 0;       // to bind, to connect
    rules.scopes = version >= 6 ? 3 : 0;        // abstract sockets, signals
    const std::size_t words = version >= 6 ? 3 : version >= 4 ? 2 : 1;
    return {rules, words * sizeof(std::uint64_t)};
}

} // namespace gateway::landlock
