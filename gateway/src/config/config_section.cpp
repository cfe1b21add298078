#include "config/config_section.h"

#include "common/toml_bounds.h"

#include <stdexcept>

namespace gateway {

namespace fs = std::filesystem;

[[noreturn]] void fail(const fs::path &file, std::string_view what) {
    throw std::runtime_error(fmt::format("{}: {}", file.string(), what));
}

toml::table parse(const fs::path &path, const std::string &text) {
    if (const auto excess = excess_of(text)) {
        fail(path, fmt::format("line {}: {}", excess->line, excess->what));
    }
    try {
        return toml::parse(text);
    } catch (const toml::parse_error &fault) {
        fail(path, fmt::format("line {}: {}", fault.source().begin.line, fault.description()));
    }
}

} // namespace gateway
