// Reads one part of a TOML file: each key has a kind and limits, and a fault names its key.
#ifndef GATEWAY_CONFIG_CONFIG_SECTION_H
#define GATEWAY_CONFIG_CONFIG_SECTION_H

#include <cstdint>
#include <filesystem>
#include <optional>
#include <set>
#include <string>
#include <string_view>
#include <type_traits>
#include <vector>

#include <fmt/format.h>
#include <toml++/toml.h>

namespace gateway {

// Throws std::runtime_error that names the file.
[[noreturn]] void fail(const std::filesystem::path &file, std::string_view what);

// The table that a text of TOML is. Throws std::runtime_error that names the file and the line.
toml::table parse(const std::filesystem::path &path, const std::string &text);

// A table of a file, whose keys are all asked for: one that is not is a fault, since it is a
// misspelling. Each call throws std::runtime_error that names the file, its line, the table and the
// key where a value is of another kind, or out of its limits.
class Section {
  public:
    // The table is null where the file has none of the name: then each key has its usual value. It
    // outlives this.
    Section(std::filesystem::path file, std::string name, const toml::table *table)
        : file_(std::move(file)), name_(std::move(name)), table_(table) {}

    // Whether the file has the table.
    bool stands() const { return table_ != nullptr; }

    // The value of a key, or nothing.
    template <typename Value> std::optional<Value> find(std::string_view key) {
        asked_.emplace(key);
        const toml::node *node = table_ == nullptr ? nullptr : table_->get(key);
        if (node == nullptr) {
            return std::nullopt;
        }
        const auto value = node->value_exact<Value>();
        if (!value) {
            fail_at(key, fmt::format("has to be {}", kind_of<Value>()));
        }
        return *value;
    }

    std::string text(std::string_view key, std::string_view otherwise = "") {
        return find<std::string>(key).value_or(std::string(otherwise));
    }
    // The same, which may not be missing or empty.
    std::string text_of_need(std::string_view key) {
        const std::string value = text(key);
        if (value.empty()) {
            fail_at(key, "is missing");
        }
        return value;
    }
    // False where it is missing.
    bool flag(std::string_view key) { return find<bool>(key).value_or(false); }
    // From `least` to `most`.
    std::size_t number(std::string_view key, std::size_t otherwise, std::size_t least,
                       std::size_t most) {
        const auto value = find<std::int64_t>(key);
        if (!value) {
            return otherwise;
        }
        if (*value < static_cast<std::int64_t>(least) || *value > static_cast<std::int64_t>(most)) {
            fail_at(key, fmt::format("is not from {} to {}", least, most));
        }
        return static_cast<std::size_t>(*value);
    }
    // Whether the key stands there; it counts as asked for only by one of the others.
    bool has(std::string_view key) const { return table_ != nullptr && table_->contains(key); }
    // A list of texts, of one at least.
    std::vector<std::string> words(std::string_view key) {
        asked_.emplace(key);
        const toml::array *array = table_ == nullptr ? nullptr : (*table_)[key].as_array();
        if (array == nullptr || array->empty()) {
            fail_at(key, "is no list of words");
        }
        std::vector<std::string> all;
        for (const toml::node &node : *array) {
            const auto word = node.value_exact<std::string>();
            if (!word) {
                fail_at(key, "is no list of words");
            }
            all.push_back(*word);
        }
        return all;
    }

    // The path of a key, as beside() has it; empty without one.
    std::filesystem::path path(std::string_view key) {
        const std::string value = text(key);
        return value.empty() ? std::filesystem::path() : beside(value);
    }
    // A path relative to the file's folder.
    std::filesystem::path beside(const std::filesystem::path &path) const {
        return path.is_absolute() ? path : (file_.parent_path() / path).lexically_normal();
    }

    // All was asked for: throws for a key that was not.
    void end() const {
        if (table_ == nullptr) {
            return;
        }
        for (const auto &[key, node] : *table_) {
            if (!asked_.contains(std::string(key.str()))) {
                fail_at(key.str(), "is no key");
            }
        }
    }

    // With the line of the key, where it stands there.
    [[noreturn]] void fail_at(std::string_view key, std::string_view what) const {
        const toml::node *node = table_ == nullptr ? nullptr : table_->get(key);
        const std::string line =
            node == nullptr ? "" : fmt::format("line {}: ", node->source().begin.line);
        fail(file_, fmt::format("{}[{}] {} {}", line, name_, key, what));
    }

  private:
    template <typename Value> static constexpr std::string_view kind_of() {
        return std::is_same_v<Value, bool>          ? "true or false"
               : std::is_same_v<Value, std::string> ? "a text, in quotes"
                                                    : "a whole number";
    }

    std::filesystem::path file_;
    std::string name_;
    const toml::table *table_;
    std::set<std::string> asked_;
};

} // namespace gateway

#endif
