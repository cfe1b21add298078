#include "recovery/late_end.h"

#include "config/log_location.h"
#include "log/checkpoint_file.h"
#include "log/log_guard.h"

#include <algorithm>
#include <filesystem>
#include <string>

namespace gateway {

namespace {

namespace fs = std::filesystem;

constexpr std::string_view ending = ".checkpoint";
constexpr std::size_t digits_of_date = 8;

// The date in the name of a checkpoint's file, where it is one of this venue's; else empty.
std::string date_in(const std::string &name, const std::string &venue) {
    const std::string begin = (venue.empty() ? "day" : venue) + "-";
    const bool is_one = name.starts_with(begin) && name.ends_with(ending) &&
                        name.size() == begin.size() + digits_of_date + ending.size();
    const std::string date = is_one ? name.substr(begin.size(), digits_of_date) : "";
    return std::ranges::all_of(date, [](char c) { return c >= '0' && c <= '9'; }) ? date : "";
}

// Empty where there is none.
std::string last_date(const Config &config, std::string_view before) {
    std::string last;
    std::error_code none;
    for (const fs::directory_entry &file : fs::directory_iterator(config.checkpoints, none)) {
        const std::string date = date_in(file.path().filename().string(), config.venue);
        last = date < before ? std::max(last, date) : last;
    }
    return last;
}

std::string with_date(std::string text, std::string_view was, std::string_view date) {
    const std::size_t at = text.find(was);
    return at == std::string::npos ? text : text.replace(at, was.size(), date);
}

// The venue's configuration as it was on another day, as far as its log's place and name go.
Config of_day(Config config, const std::string &date) {
    config.sqlite = with_date(config.log_files.string(), "{date}", date);
    config.schema = with_date(config.schema, config.firms.date, date);
    config.firms.date = date;
    return config;
}

} // namespace

void sign_late_end(const Config &config, std::string_view before,
                   const std::shared_ptr<spdlog::logger> &events) {
    const std::string date = last_date(config, before);
    if (date.empty()) {
        return;
    }
    Config day = of_day(config, date);
    const auto begun = begun_configuration(day);
    if (!begun || !says_that_it_goes_on(checkpoint_path(day.checkpoints, day.venue, date))) {
        return;
    }
    day.configuration = *begun;
    const auto database = open_database(day);
    const auto term = database->take_over();
    if (!term) {
        return;
    }
    LogGuard guard(sealer_of(day), day.checkpoints, events);
    guard.sign_end(*database->reader(), *database->writer(), *term);
    events->warn("the end of a day was signed late date={}{}", date,
                 day.venue.empty() ? "" : " venue=" + day.venue);
}

} // namespace gateway
