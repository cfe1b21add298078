#include "config/config_files.h"

#include "base/private_file.h"
#include "common/regular_file.h"
#include "common/toml_bounds.h"

#include <algorithm>
#include <fstream>
#include <optional>
#include <stdexcept>

#include <fmt/format.h>

namespace gateway {

namespace {

// As much as a configuration may have, and a byte more where it has more.
std::optional<std::string> read(const std::filesystem::path &file) {
    if (may_have_no_end(file)) {
        return std::nullopt;
    }
    std::ifstream in(file, std::ios::binary);
    std::string text(longest_toml + 1, '\0');
    if (!in.read(text.data(), static_cast<std::streamsize>(text.size())) && !in.eof()) {
        return std::nullopt;
    }
    text.resize(static_cast<std::size_t>(in.gcount()));
    return text;
}

} // namespace

const std::string &ConfigFiles::text(const std::filesystem::path &file) {
    const auto [found, is_new] = texts_.try_emplace(file);
    if (is_new) {
        found->second = read(file);
    }
    if (!found->second) {
        throw std::runtime_error(fmt::format("{}: can't be read", file.string()));
    }
    if (found->second->size() > longest_toml) {
        throw std::runtime_error(
            fmt::format("{}: it has more than {} bytes", file.string(), longest_toml));
    }
    return *found->second;
}

void ConfigFiles::require_private(const std::filesystem::path &file) {
    if (!private_.contains(file)) {
        check_private(file);
        private_.insert(file);
    }
}

std::shared_ptr<const SealKeys> ConfigFiles::keys(const SealFiles &files) {
    std::vector<std::filesystem::path> names = {files.secret, files.own};
    names.insert(names.end(), files.gateways.begin(), files.gateways.end());
    std::shared_ptr<const SealKeys> &keys = keys_[names];
    if (!keys) {
        keys = read_seal_keys(files);
    }
    return keys;
}

bool ConfigFiles::differ_only_in(const std::filesystem::path &file,
                                 const ConfigFiles &before) const {
    ConfigFiles same = before;
    const auto found = texts_.find(file);
    if (found == texts_.end() || *this == before) {
        return false;
    }
    same.texts_[file] = found->second;
    return *this == same;
}

bool ConfigFiles::differ_now() const {
    return std::ranges::any_of(texts_,
                               [](const auto &each) { return read(each.first) != each.second; });
}

} // namespace gateway
