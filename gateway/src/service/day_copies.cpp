#include "service/day_copies.h"

#include "base/file_copy.h"
#include "base/pause.h"
#include "base/private_file.h"
#include "config/log_location.h"
#include "config/venue_rules.h"
#include "log/checkpoint_file.h"
#include "log/database.h"
#include "log/records.h"

#include <algorithm>
#include <chrono>
#include <map>
#include <stdexcept>

#include <fmt/format.h>

namespace gateway {

namespace {

namespace fs = std::filesystem;

constexpr std::string_view date_mark = "{date}";
constexpr const char *sums_name = "SHA256SUMS";

// Names of files with their SHA-256, as sha256sum writes and checks them.
using Sums = std::map<std::string, Digest>;

std::string lines_of(const Sums &sums) {
    std::string text;
    for (const auto &[name, digest] : sums) {
        text += fmt::format("{}  {}\n", text_of(digest), name);
    }
    return text;
}

bool has_sum(std::string_view sums, const Digest &digest, const std::string &name) {
    return sums.find(fmt::format("{}  {}\n", text_of(digest), name)) != std::string_view::npos;
}

// Where somebody reads the log while its day is copied: so often it is tried again, with a second
// between.
constexpr int most_tries = 600;

Day read_day(const fs::path &log) {
    const auto database = open_sqlite(log.string());
    const std::vector<Entry> first = database->reader()->entries(0, 1);
    if (first.empty()) {
        throw std::runtime_error("it has no entry 0");
    }
    return day_of(first.front().line);
}

// Whether it is of a day that never opened, and of which firms were told before: there is nothing
// to copy.
bool has_not_begun(const fs::path &log) {
    try {
        return !open_sqlite(log.string())->reader()->last_entry();
    } catch (const std::exception &) {
        return false;
    }
}

// Whoever closes a database as the last one puts what stands in its WAL into the file, and removes
// the WAL: then the file is whole.
bool is_whole(const fs::path &log) {
    return !fs::exists(log.string() + "-wal");
}

// The day's own row, from a log that is whole when it returns.
Day day_of_whole(const fs::path &log, const std::stop_token &stop) {
    Day day = read_day(log);
    for (int tries = 1; !is_whole(log); ++tries) {
        if (tries == most_tries || stop.stop_requested()) {
            throw std::runtime_error("somebody has it open");
        }
        pause_for(std::chrono::seconds(1), stop);
        day = read_day(log);
    }
    return day;
}

} // namespace

fs::path DayCopies::log_of(std::string_view date) const {
    std::string name = config_.log_files.filename();
    name.replace(name.find(date_mark), date_mark.size(), date);
    return config_.log_files.parent_path() / name;
}

fs::path DayCopies::copy_of(std::string_view date) const {
    return config_.copies /
           (config_.venue.empty() ? std::string(date) : fmt::format("{}-{}", date, config_.venue));
}

fs::path DayCopies::checkpoint_of(std::string_view date) const {
    return checkpoint_path(config_.checkpoints, config_.venue, date);
}

// In their order.
std::vector<std::string> DayCopies::ended_days(std::string_view before) const {
    const std::string pattern = config_.log_files.filename();
    const std::size_t at = pattern.find(date_mark);
    std::vector<std::string> days;
    for (const fs::directory_entry &each :
         fs::directory_iterator(config_.log_files.parent_path())) {
        const std::string name = each.path().filename();
        const std::string date = name.size() > at ? name.substr(at, 8) : "";
        if (is_date(date) && date < before && each.path() == log_of(date)) {
            days.push_back(date);
        }
    }
    std::ranges::sort(days);
    return days;
}

std::size_t DayCopies::make(std::string_view before, const std::stop_token &stop) {
    const std::vector<std::string> days = ended_days(before);
    std::size_t missing = 0;
    for (const std::string &date : days) {
        const bool has_begun = fs::exists(checkpoint_of(date)) || !has_not_begun(log_of(date));
        missing += !has_begun || is_copied(date, stop) || try_copy(date, stop) ? 0 : 1;
    }
    const std::size_t old = days.size() - std::min(days.size(), config_.keep.value_or(days.size()));
    for (std::size_t at = 0; at < old && !stop.stop_requested(); ++at) {
        try_remove(days[at], stop);
    }
    return missing;
}

// A day that was opened again after it was copied has a log that was written later.
bool DayCopies::is_copied(const std::string &date, const std::stop_token &stop) const {
    const fs::path sums = copy_of(date) / sums_name;
    std::error_code fault;
    if (!fs::exists(copy_of(date), fault)) {
        return false;
    }
    const auto copied = fs::last_write_time(sums, fault);
    const auto written = fault ? fs::file_time_type() : fs::last_write_time(log_of(date), fault);
    try {
        return fault || written <= copied ||
               has_sum(read_public(sums), sha256_of_file(log_of(date), stop),
                       log_of(date).filename());
    } catch (const std::exception &) {
        return true; // what is wrong with it is told where its log is to be removed
    }
}

// The name is free for a new copy, and what had it is there still: it may be sealed.
void DayCopies::put_aside(const std::string &date) {
    const fs::path copy = copy_of(date);
    if (!fs::exists(copy)) {
        return;
    }
    fs::path aside;
    for (int number = 1; aside.empty() || fs::exists(aside); ++number) {
        aside = fmt::format("{}.{}", copy.string(), number);
    }
    fs::rename(copy, aside);
    events_->warn("day went on after it was copied date={} before={}", date, aside.string());
}

bool DayCopies::try_copy(const std::string &date, const std::stop_token &stop) {
    try {
        copy(date, stop);
        events_->info("day copied date={} to={}", date, copy_of(date).string());
        return true;
    } catch (const std::exception &fault) {
        events_->error("day is not copied date={} cause=\"{}\"", date, fault.what());
        return false;
    }
}

void DayCopies::copy(const std::string &date, const std::stop_token &stop) {
    const fs::path log = log_of(date);
    const Day day = day_of_whole(log, stop);
    // The place itself is never made: what is mounted there may be gone.
    const fs::path part = copy_of(date).string() + ".part";
    fs::remove_all(part);
    fs::create_directory(part);
    Sums sums;
    const auto put = [&](const fs::path &file, const std::string &name, unsigned mode) {
        sums[name] = copy_file_checked(file, part / name, mode, stop);
    };
    put(log, log.filename(), 0440);
    write_new(part / "venue.toml", day.configuration, 0440);
    sums["venue.toml"] = sha256(day.configuration);
    if (const fs::path kept = checkpoint_of(date); fs::exists(kept)) {
        put(kept, kept.filename(), 0440);
    }
    if (fs::exists(config_.program) && sha256_of_file(config_.program, stop) == day.program) {
        put(config_.program, config_.program.filename(), 0550);
    } else {
        events_->warn("day is copied without its program date={} program=\"{}\"", date,
                      day.version);
    }
    write_new(part / sums_name, lines_of(sums), 0440);
    synchronise_folder(part);
    put_aside(date);
    fs::rename(part, copy_of(date));
    synchronise_folder(config_.copies);
}

// A keeper with a key of its own has checked and sealed the day: its list has the seal, and this
// very log.
void DayCopies::check_sealed(const std::string &date, const Digest &log) const {
    if (config_.sealed.empty()) {
        return;
    }
    const fs::path told = config_.sealed / copy_of(date).filename();
    if (!fs::exists(told)) {
        throw std::runtime_error("it is not sealed yet");
    }
    const std::string name = log_of(date).filename();
    const std::string sums = read_public(told);
    if (!has_sum(sums, log, name) || sums.find(fmt::format("  {}.seal\n", name)) == sums.npos) {
        throw std::runtime_error(fmt::format("another log was sealed, as {} says", told.string()));
    }
}

// The copy is read anew, so that one which was lost or changed meanwhile takes nothing with it.
void DayCopies::try_remove(const std::string &date, const std::stop_token &stop) {
    const fs::path log = log_of(date);
    const std::string name = log.filename();
    try {
        const Digest own = sha256_of_file(log, stop);
        const std::string sums = read_public(copy_of(date) / sums_name);
        if (!has_sum(sums, own, name) || sha256_of_file(copy_of(date) / name, stop) != own) {
            throw std::runtime_error("its copy is another");
        }
        check_sealed(date, own);
        fs::remove(log);
        fs::remove(log.string() + ".lock");
        fs::remove(checkpoint_of(date));
        fs::remove(checkpoint_of(date).replace_extension(early_ending));
        synchronise_folder(log.parent_path());
        events_->info("log removed date={} copy={}", date, copy_of(date).string());
    } catch (const std::exception &fault) {
        events_->error("log is not removed date={} cause=\"{}\"", date, fault.what());
    }
}

std::size_t copies_without_seal(const Config &config) {
    if (config.copies.empty() || config.sealed.empty()) {
        return 0;
    }
    std::size_t count = 0;
    std::error_code fault;
    for (const fs::directory_entry &each : fs::directory_iterator(config.copies, fault)) {
        const std::string name = each.path().filename();
        const std::string date = name.substr(0, name.find('-'));
        const bool is_own =
            name == (config.venue.empty() ? date : fmt::format("{}-{}", date, config.venue));
        std::error_code none;
        count += is_date(date) && is_own && !fs::exists(config.sealed / name, none) ? 1 : 0;
    }
    return count;
}

} // namespace gateway
