// Limits how long and how deep a text of TOML may be before a parser gets it.
#ifndef COMMON_TOML_BOUNDS_H
#define COMMON_TOML_BOUNDS_H

#include <cstddef>
#include <optional>
#include <string>
#include <string_view>

namespace gateway {

// Bytes of a file of TOML.
constexpr std::size_t longest_toml = 1 << 20;

// Brackets within brackets, and parts of a dotted key. A parser calls itself for each, and a line
// of tens of thousands of them takes its stack.
constexpr std::size_t deepest_toml = 32;

// What is wrong with a text that a parser may not be given.
struct TomlExcess {
    std::size_t line = 1;
    std::string what;
};

// Nothing where a parser may be given it. The text need not be TOML.
std::optional<TomlExcess> excess_of(std::string_view text);

} // namespace gateway

#endif
