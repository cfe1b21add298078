#include "service/day_hours.h"

#include "base/private_file.h"
#include "config/venue_rules.h"
#include "log/checkpoint_file.h"

#include <algorithm>
#include <cstdint>
#include <exception>
#include <sstream>
#include <string>

#include <fmt/format.h>

namespace gateway {

namespace {

namespace fs = std::filesystem;

fs::path file_of(const Config &config) {
    return config.checkpoints / ((config.venue.empty() ? "day" : config.venue) + ".hours");
}

// The number behind a word; nothing where another word stands there.
std::optional<SystemSeconds> moment_in(std::istringstream &text, std::string_view word) {
    std::string found;
    std::int64_t seconds = 0;
    text >> found >> seconds;
    return text && found == word ? std::optional(SystemSeconds(std::chrono::seconds(seconds)))
                                 : std::nullopt;
}

std::optional<TradingDay> day_in(const std::string &text) {
    std::istringstream words(text);
    std::string word;
    std::string date;
    words >> word >> date;
    const auto opens = moment_in(words, "opens");
    const auto closes = moment_in(words, "closes");
    const auto ends = moment_in(words, "ends");
    if (word != "day" || !is_date(date) || !opens || !closes || !ends) {
        return std::nullopt;
    }
    const SystemSeconds midnight = midnight_of(date);
    const bool is_day = midnight <= *opens && *opens < *closes && *closes <= *ends &&
                        *ends <= midnight + std::chrono::days(1);
    return is_day ? std::optional(TradingDay{date, *opens, *closes, *ends}) : std::nullopt;
}

} // namespace

void keep_hours(const Config &config, const TradingDay &day) {
    const auto seconds = [](SystemSeconds moment) { return moment.time_since_epoch().count(); };
    fs::create_directories(config.checkpoints);
    replace_file(file_of(config),
                 fmt::format("day {}\nopens {}\ncloses {}\nends {}\n", day.date, seconds(day.opens),
                             seconds(day.closes), seconds(day.ends)));
}

std::optional<TradingDay> kept_hours(const Config &config) {
    try {
        return fs::exists(file_of(config)) ? day_in(read_public(file_of(config))) : std::nullopt;
    } catch (const std::exception &) {
        return std::nullopt;
    }
}

bool goes_on(const Config &config, std::string_view date) {
    return says_that_it_goes_on(checkpoint_path(config.checkpoints, config.venue, date));
}

std::optional<TradingDay> day_that_goes_on(const std::vector<Config> &configs,
                                           const TradingDay &by_rules, SystemSeconds now) {
    const auto kept = kept_hours(configs.front());
    if (!kept || now < kept->opens || now >= kept->ends) {
        return std::nullopt;
    }
    const bool is_same = by_rules.date == kept->date;
    if ((is_same && by_rules.opens <= now) || std::ranges::none_of(configs, [&](const Config &one) {
            return goes_on(one, kept->date);
        })) {
        return std::nullopt;
    }
    return is_same ? TradingDay{kept->date, kept->opens, by_rules.closes, by_rules.ends} : kept;
}

} // namespace gateway
