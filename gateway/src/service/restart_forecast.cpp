#include "service/restart_forecast.h"

#include "base/file_copy.h"
#include "base/printable.h"
#include "config/log_location.h"
#include "config/start_configuration.h"
#include "config/venue_file.h"
#include "log/checkpoint_file.h"
#include "service/day_hours.h"
#include "service/ended_day.h"
#include "service/start_check.h"

#include <algorithm>
#include <exception>
#include <map>
#include <optional>
#include <stdexcept>

#include <fmt/chrono.h>
#include <fmt/format.h>

namespace gateway {

namespace {

// Why a start would not go on with a venue's log, in the words of its sentence.
class StartFails : public std::runtime_error {
  public:
    using std::runtime_error::runtime_error;
};

std::string text_of(SystemSeconds moment) {
    return fmt::format("{:%Y-%m-%dT%H:%M:%SZ}", fmt::gmtime(moment.time_since_epoch().count()));
}

std::string date_of(SystemSeconds moment) {
    return fmt::format("{:%Y%m%d}", fmt::gmtime(moment.time_since_epoch().count()));
}

// Of what is told of a file.
constexpr std::size_t longest_told = 400;

// In one line: a venue's file may have several faults, and the first tells the kind.
std::string first_line(const std::exception &fault) {
    const std::string text = fault.what();
    return printable(text.substr(0, text.find('\n')), longest_told);
}

// The venues' files, which are the next day's where a day has begun.
struct NextFiles {
    std::string fault;                        // which keeps no gateway from that day; else empty
    std::map<std::string, std::string> texts; // as they were written, by the venues' names
};

NextFiles next_files(const std::filesystem::path &path, std::string_view day) {
    NextFiles next;
    try {
        ConfigFiles files;
        for (const Config &config : read_next_configs(files, path, day)) {
            const std::string &date = config.firms.date;
            if (config.firms.has_own_date && date != day) {
                next.fault = fmt::format("it is of {}", date);
            }
            next.texts[config.venue] = as_written(config.configuration, date);
        }
    } catch (const std::exception &fault) {
        next.fault = first_line(fault);
    }
    return next;
}

// The day that a start opens, or goes on with.
struct DayOfStart {
    std::string date;
    std::optional<TradingDay> hours; // none where the venue's configuration is of one day
    bool by_kept_hours = false;      // those of [day] would close it
};

std::string named(const Config &config, const std::string &date) {
    return config.venue.empty() ? date : fmt::format("{} of {}", date, config.venue);
}

// Where a log is not the one that was left.
[[noreturn]] void fail_accepted(const Config &config, const std::string &why) {
    throw StartFails(fmt::format("{}: {}",
                                 config.operator_socket.empty()
                                     ? "ends with status 3"
                                     : "opens no day and waits for `mireseason-admin log "
                                       "accept-loss`",
                                 why));
}

// Holds the log's end against the checkpoint that is kept, which is read first: a gateway may be
// at work.
void check_end(const Config &config, const std::optional<Checkpoint> &kept, LogReader &log) {
    if (!kept) {
        // Of a database another gateway may have written the log.
        if (!config.sqlite.empty()) {
            fail_accepted(config, "there is a log, and no checkpoint of it");
        }
        return;
    }
    if (kept->at.hash == Digest{}) {
        return; // signed before the day's first entry
    }
    const std::vector<Entry> found = log.entries(kept->at.place, 1);
    if (found.empty() || found.front().place != kept->at.place) {
        fail_accepted(config,
                      fmt::format("its log lacks entry {}, which was signed", kept->at.place));
    }
    if (found.front().hash != kept->at.hash) {
        fail_accepted(config, fmt::format("entry {} of its log is not the one that was signed",
                                          kept->at.place));
    }
}

std::optional<Checkpoint> kept_of(const Config &config) {
    try {
        const auto file = checkpoint_path(config.checkpoints, config.venue, config.firms.date);
        return std::filesystem::exists(file)
                   ? CheckpointFile(config.checkpoints, sealer_of(config)).read()
                   : std::nullopt;
    } catch (const std::exception &fault) {
        throw StartFails("ends with status 1: " + first_line(fault));
    }
}

void check_begun(const Config &config, const DayOfStart &day, const Day &begun) {
    const std::string date = read_venue_file("entry 0", begun.configuration, day.date).date;
    if (date != day.date) {
        fail_accepted(config, fmt::format("the log of {} is in its place", date));
    }
    if (begun.venue != config.venue) {
        throw StartFails(
            fmt::format("ends with status 1: the log is that of the venue `{}`", begun.venue));
    }
    if (!day.hours && begun.configuration != config.configuration) {
        throw StartFails("ends with status 1: the venue's configuration has a date, and is not the "
                         "one that the day began with");
    }
}

std::string said_of_program(const Config &config, const Day &begun) {
    const bool is_there = std::filesystem::exists(config.program);
    return is_there && sha256_of_file(config.program, {}) != begun.program
               ? "; the venue's program is another than it began with, and what that gives is "
                 "compared with what firms were sent"
               : "";
}

std::string said_of_files(bool are_others, const NextFiles &next) {
    if (!next.fault.empty()) {
        return fmt::format("; it does so by its entry 0, since the venue's configuration is at "
                           "fault: {}",
                           next.fault);
    }
    return are_others ? "; it does so with the configuration that it began with, and that of now "
                        "applies to the next day"
                      : "";
}

// Where the day now ends before the moment that it began with.
std::string said_of_earlier_end(const Config &config, const DayOfStart &day) {
    const auto kept = kept_hours(config);
    return kept && kept->date == day.date && day.hours->ends < kept->ends
               ? fmt::format(
                     ", and not to {} as it began: a request that is open then ends without "
                     "a notice",
                     text_of(kept->ends))
               : "";
}

std::string said_of_hours(const Config &config, const DayOfStart &day) {
    if (!day.hours) {
        return "";
    }
    return fmt::format(" to {}{}", text_of(day.hours->ends),
                       day.by_kept_hours
                           ? ", by the hours that it began with: by [day] as it is now it would be "
                             "closed, which takes `mireseason-admin end-day`"
                           : said_of_earlier_end(config, day));
}

std::string said_of_copies(const Config &config, Viewer viewer) {
    const auto fault = fault_of_copies(config);
    if (!fault) {
        return "";
    }
    return viewer == Viewer::running_gateway && fault->is_read_only
               ? fmt::format(
                     "; {} for the gateway that runs: a restart has what ReadWritePaths= of "
                     "its unit says",
                     fault->words)
               : fmt::format("; no day is copied then: {}", fault->words);
}

// The firms of the day that has begun, whatever the venue's files say by now. Credentials may name
// a trader of tomorrow, whom that day does not know: then nothing is told of them.
void put_kept_out(const std::filesystem::path &path, Config config, const DayOfStart &day,
                  RestartForecast &forecast) {
    try {
        config.firms.names = read_venue_file("entry 0", config.configuration, day.date).firms;
        for (std::string &words : kept_out(read_access(path, config), day.date)) {
            forecast.sentences.push_back(std::move(words));
        }
    } catch (const std::runtime_error &) {
    }
}

class VenueForecast {
  public:
    VenueForecast(const std::filesystem::path &path, Viewer viewer, const DayOfStart &day,
                  NextFiles next)
        : path_(path), viewer_(viewer), day_(day), next_(std::move(next)) {}

    void put(const Config &config, RestartForecast &forecast) const {
        const std::size_t before = forecast.sentences.size();
        try {
            put_words(config, forecast);
        } catch (const StartFails &fails) {
            forecast.sentences.resize(before);
            put_failure(config, fails.what(), forecast);
        } catch (const std::exception &other) {
            forecast.sentences.resize(before);
            put_failure(config, "ends with status 1: " + first_line(other), forecast);
        }
    }

  private:
    // What a start does to the day of one venue. Throws StartFails.
    void put_words(Config config, RestartForecast &forecast) const {
        const bool was_kept =
            std::filesystem::exists(checkpoint_path(config.checkpoints, config.venue, day_.date));
        const bool has_ended = was_kept && !goes_on(config, day_.date);
        if (config.sqlite.empty() && viewer_ == Viewer::running_gateway) {
            tell(config, "finds files that are right for", "; its log was not looked at", forecast);
            return;
        }
        const auto log = read_log(config);
        const std::vector<Entry> first = log ? log->entries(0, 1) : std::vector<Entry>();
        if (first.empty()) {
            if (was_kept) {
                fail_accepted(config, "its log is not there, and a checkpoint of it is");
            }
            tell(config, "begins", "", forecast);
            put_kept_out(path_, config, day_, forecast);
            return;
        }
        const Day begun = day_of(first.front().line);
        check_begun(config, day_, begun);
        const auto text = next_.texts.find(config.venue);
        const bool are_others =
            text != next_.texts.end() && text->second != as_written(begun.configuration, day_.date);
        forecast.has_begun = true;
        forecast.files_are_others |= are_others;
        config.configuration = begun.configuration;
        check_end(config, kept_of(config), *log);
        tell(config, has_ended ? "opens again" : "goes on with",
             said_of_files(are_others, next_) + said_of_program(config, begun), forecast);
        put_kept_out(path_, config, day_, forecast);
    }

    void tell(const Config &config, std::string_view does, const std::string &more,
              RestartForecast &forecast) const {
        forecast.sentences.push_back(
            fmt::format("a restart now {} {}{}{}{}", does, named(config, day_.date),
                        said_of_hours(config, day_), more, said_of_copies(config, viewer_)));
    }

    void put_failure(const Config &config, const std::string &words,
                     RestartForecast &forecast) const {
        forecast.goes_well = false;
        forecast.sentences.push_back(
            fmt::format("a restart now with {} {}", named(config, day_.date), words));
    }

    const std::filesystem::path &path_;
    Viewer viewer_;
    const DayOfStart &day_;
    NextFiles next_;
};

// By [day] no day is open. One that has begun here, and whose end has not come as far as is known,
// is closed by that.
void put_closed(const std::vector<Config> &configs, const TradingDay &next,
                const std::string &today, SystemSeconds now, RestartForecast &forecast) {
    const auto kept = kept_hours(configs.front());
    const bool is_over = kept && kept->date == today && kept->ends <= now;
    const auto is_open = [&](const Config &config) { return goes_on(config, today); };
    if (!is_over && std::ranges::any_of(configs, is_open)) {
        forecast.goes_well = false;
        forecast.sentences.push_back(fmt::format(
            "a restart now closes {}, which has begun and has not ended, since by [day] it is not "
            "open; the next day, {}, opens at {}",
            today, next.date, text_of(next.opens)));
        return;
    }
    forecast.sentences.push_back(fmt::format("a restart now opens no day yet: {} opens at {}",
                                             next.date, text_of(next.opens)));
}

DayOfStart day_of_start(const std::vector<Config> &configs, SystemSeconds now, Viewer viewer) {
    const TradingDays days(configs.front().days, now);
    const TradingDay by_rules = days.first_after(now);
    const auto begun = day_that_goes_on(configs, by_rules, now);
    if (begun) {
        return {begun->date, begun, true};
    }
    const bool is_read = viewer == Viewer::operators_check || !configs.front().sqlite.empty();
    const bool is_ended = is_read && is_ended_by_order(configs, by_rules.date);
    const TradingDay day = is_ended ? days.first_after(by_rules.ends) : by_rules;
    return {day.date, day, false};
}

RestartForecast forecast_of(const std::filesystem::path &path, SystemSeconds now, Viewer viewer) {
    RestartForecast forecast;
    const std::string today = date_of(now);
    ConfigFiles files;
    const std::vector<Config> configs = read_configs_of_start(files, path, today);
    for (const Config &config : configs) {
        check_machine(config);
    }
    DayOfStart day{configs.front().firms.date, {}, false};
    if (!configs.front().firms.has_own_date) {
        day = day_of_start(configs, now, viewer);
        if (day.hours->opens > now) {
            put_closed(configs, *day.hours, today, now, forecast);
            return forecast;
        }
    } else if (day.date != today) {
        throw std::runtime_error(
            fmt::format("the venue's configuration is of {}, and the day is {}", day.date, today));
    }
    const VenueForecast venues(path, viewer, day, next_files(path, today));
    for (const Config &config : configs) {
        venues.put(config, forecast);
    }
    return forecast;
}

} // namespace

RestartForecast forecast_restart(const std::filesystem::path &path, SystemSeconds now,
                                 Viewer viewer) {
    try {
        return forecast_of(path, now, viewer);
    } catch (const std::exception &fault) {
        RestartForecast forecast;
        forecast.sentences = {"a restart now ends with status 1: " + first_line(fault)};
        forecast.goes_well = false;
        return forecast;
    }
}

} // namespace gateway
