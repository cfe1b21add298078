// Finds in which fields two libraries answered differently.
#ifndef SESSIONS_DIFFER_H
#define SESSIONS_DIFFER_H

#include "fix_sessions.h"

#include <string>

namespace sessions {

// What one library said of an event.
struct Said {
    bool is_done = false;
    SessionState state{};
    Told told{};
    std::string bytes; // all of the turn
};

inline bool is_same(bool one, bool other) {
    return one == other;
}
bool is_same(const Said &one, const Said &other);
bool is_same(const FoundNext &one, const FoundNext &other);
bool is_same(const Asked &one, const Asked &other);
bool is_same(const Wanted &one, const Wanted &other);

inline std::string described(bool is) {
    return is ? "yes" : "no";
}
std::string described(const Said &said);
std::string described(const FoundNext &found);
std::string described(const Asked &asked);
std::string described(const Wanted &wanted);
std::string described(const SessionState &state);

// Two libraries do not say the same of a call.
[[noreturn]] void differ(const std::string &call, const std::string &one, const std::string &other);

} // namespace sessions

#endif
