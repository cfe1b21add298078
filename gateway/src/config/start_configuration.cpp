#include "config/start_configuration.h"

#include "config/log_location.h"

#include <algorithm>
#include <optional>
#include <stdexcept>
#include <string>

#include <fmt/chrono.h>
#include <fmt/format.h>

namespace gateway {

std::string as_written(const std::string &configuration, std::string_view day) {
    const std::string date = fmt::format("date = \"{}\"\n", day);
    return configuration.starts_with(date) ? configuration.substr(date.size()) : configuration;
}

namespace {

// Puts the configurations that today's logs began with in the place of the venues' files. False
// where no log of today has begun.
bool take_begun(ConfigFiles &files, const std::filesystem::path &path, std::string_view day) {
    bool has_some = false;
    for (const VenuePlace &place : venue_places(files, path, day)) {
        if (const auto begun = begun_configuration(place.log)) {
            files.set(place.file, as_written(*begun, day));
            has_some = true;
        }
    }
    return has_some;
}

// The same as the day began; nothing where that has no effect, or is at fault itself. A firm that
// is new on the next day may have credentials already.
std::optional<std::vector<Config>> read_begun(ConfigFiles &files, const std::filesystem::path &path,
                                              std::string_view day) {
    try {
        ConfigFiles begun = files;
        if (!take_begun(begun, path, day)) {
            return std::nullopt;
        }
        std::vector<Config> configs =
            read_configs(begun, path, day, UnknownFirms::count_for_nothing);
        files = begun;
        return configs;
    } catch (const std::runtime_error &) {
        return std::nullopt;
    }
}

bool are_of(const std::vector<Config> &configs, std::string_view day) {
    return std::ranges::all_of(configs,
                               [&](const Config &config) { return config.firms.date == day; });
}

} // namespace

std::vector<Config> read_next_configs(ConfigFiles &files, const std::filesystem::path &path,
                                      std::string_view day) {
    const SystemSeconds tomorrow = midnight_of(day) + std::chrono::days(1);
    const std::string date =
        fmt::format("{:%Y%m%d}", fmt::gmtime(tomorrow.time_since_epoch().count()));
    return read_configs(files, path, date);
}

std::vector<Config> read_configs_of_start(ConfigFiles &files, const std::filesystem::path &path,
                                          std::string_view day) {
    try {
        std::vector<Config> configs = read_configs(files, path, day);
        if (are_of(configs, day)) {
            return configs;
        }
        auto begun = read_begun(files, path, day);
        return begun ? std::move(*begun) : configs;
    } catch (const std::runtime_error &) {
        if (auto begun = read_begun(files, path, day)) {
            return std::move(*begun);
        }
        throw;
    }
}

} // namespace gateway
