// Guesses which word somebody meant who mistyped one.
#ifndef GATEWAY_BASE_NEAREST_WORD_H
#define GATEWAY_BASE_NEAREST_WORD_H

#include <optional>
#include <span>
#include <string_view>

namespace gateway {

// Of these words the one that is the fewest letters away, each added, left out, changed, or changed
// with its neighbour; none where every one is more than a third of its own letters away.
std::optional<std::string_view> nearest_word(std::string_view written,
                                             std::span<const std::string_view> words);

} // namespace gateway

#endif
