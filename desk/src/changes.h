// Finds what is new or other in a request that a page has, so that the page is not told its whole
// history.
#ifndef DESK_CHANGES_H
#define DESK_CHANGES_H

#include <nlohmann/json_fwd.hpp>

namespace desk {

// What makes the one view of a request the other: {"id", "set": {KEY: VALUE}, "lists": {KEY:
// {"size": COUNT, "items": [[PLACE, VALUE]]}}}. A view loses no key.
nlohmann::json change_of(const nlohmann::json &before, const nlohmann::json &after);

} // namespace desk

#endif
