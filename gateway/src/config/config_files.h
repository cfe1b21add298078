// The texts of the files that a configuration is read from.
#ifndef GATEWAY_CONFIG_CONFIG_FILES_H
#define GATEWAY_CONFIG_CONFIG_FILES_H

#include "log/seals.h"

#include <filesystem>
#include <map>
#include <memory>
#include <optional>
#include <set>
#include <string>
#include <utility>
#include <vector>

namespace gateway {

// Each file is read once: so a configuration that was found right can be read again for another
// day, whatever its files have become since.
class ConfigFiles {
  public:
    // Throws std::runtime_error that names a file that can't be read.
    const std::string &text(const std::filesystem::path &file);

    // Throws std::runtime_error where the file is there and others may read it.
    void require_private(const std::filesystem::path &file);

    // Throws as read_seal_keys().
    std::shared_ptr<const SealKeys> keys(const SealFiles &files);

    // Has a file taken for one with this text.
    void set(const std::filesystem::path &file, std::string text) {
        texts_[file] = std::move(text);
    }

    // Whether a file of those that were asked for has another text now, or can't be read any more,
    // or can now and could not.
    bool differ_now() const;

    // Whether this file is the only one that was another then.
    bool differ_only_in(const std::filesystem::path &file, const ConfigFiles &before) const;

    // Whether the texts are the same.
    bool operator==(const ConfigFiles &other) const { return texts_ == other.texts_; }

  private:
    std::map<std::filesystem::path, std::optional<std::string>> texts_;
    std::set<std::filesystem::path> private_; // that were found so
    std::map<std::vector<std::filesystem::path>, std::shared_ptr<const SealKeys>> keys_;
};

} // namespace gateway

#endif
