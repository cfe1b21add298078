// Reads the values of a TOML file. An error names the file, the key and what is wrong.
#ifndef DESK_TOML_FILE_H
#define DESK_TOML_FILE_H

#include <chrono>
#include <cstdint>
#include <initializer_list>
#include <string>
#include <string_view>
#include <vector>

#include <toml++/toml.h>

namespace desk {

// One table of a file. Paths of files in it are relative to the file.
class TomlTable {
  public:
    TomlTable(std::string path, std::string place, const toml::table &table)
        : path_(std::move(path)), place_(std::move(place)), table_(&table) {}

    // Throws std::runtime_error where a key is none of these.
    void allow(std::initializer_list<std::string_view> keys) const;

    bool has(std::string_view key) const { return table_->contains(key); }
    // These throw std::runtime_error where the key is missing or of another kind.
    std::string text(std::string_view key) const;
    std::string file(std::string_view key) const;
    std::int64_t number(std::string_view key, std::int64_t least, std::int64_t greatest) const;
    // A number with or without a point.
    double decimal(std::string_view key, double least, double greatest) const;
    bool truth(std::string_view key) const;
    std::chrono::year_month_day date(std::string_view key) const;
    std::vector<std::string> texts(std::string_view key) const;
    TomlTable table(std::string_view key) const;
    // Empty where the key is missing.
    std::vector<TomlTable> tables(std::string_view key) const;

    [[noreturn]] void fail(const std::string &what) const;

  private:
    std::string path_;
    std::string place_; // of the table in the file; empty at the top
    const toml::table *table_;
};

// Throws std::runtime_error where it can't be read.
toml::table read_toml(const std::string &path);

} // namespace desk

#endif
