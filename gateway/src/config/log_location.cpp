#include "config/log_location.h"

#include "log/postgres.h"
#include "log/sqlite.h"

#include <exception>
#include <vector>

namespace gateway {

namespace {

namespace fs = std::filesystem;

// What is above has to be there: a disk that is not mounted is no place for a log.
void make_folder_of_day(const Config &config) {
    const fs::path above = above_folder_of_day(config);
    if (!above.empty() && fs::is_directory(above)) {
        fs::create_directories(config.sqlite.parent_path());
    }
}

} // namespace

fs::path above_folder_of_day(const Config &config) {
    fs::path above;
    for (const fs::path &part : config.log_files.parent_path()) {
        if (part.string().find("{date}") != std::string::npos) {
            return above;
        }
        above /= part;
    }
    return {};
}

std::unique_ptr<LogReader> read_log(const Config &config) {
    if (config.sqlite.empty()) {
        return read_postgres(config.postgres, config.schema);
    }
    return fs::exists(config.sqlite) ? sqlite::read(config.sqlite.string()) : nullptr;
}

std::unique_ptr<Database> open_database(const Config &config) {
    if (!config.sqlite.empty()) {
        make_folder_of_day(config);
        return open_sqlite(config.sqlite.string());
    }
    return open_postgres({config.postgres, config.schema, config.name, config.synchronous_commit});
}

std::optional<std::string> begun_configuration(const Config &config) {
    try {
        const auto log = read_log(config);
        const auto first = log ? log->entries(0, 1) : std::vector<Entry>();
        return first.empty() ? std::nullopt
                             : std::optional(day_of(first.front().line).configuration);
    } catch (const std::exception &) {
        return std::nullopt;
    }
}

Sealer sealer_of(const Config &config) {
    return {{config.venue, config.firms.date, sha256(config.configuration)}, config.keys};
}

} // namespace gateway
