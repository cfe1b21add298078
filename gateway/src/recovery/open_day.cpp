#include "recovery/open_day.h"

#include "base/pause.h"
#include "base/process.h"
#include "common/regular_file.h"
#include "common/version.h"
#include "config/venue_file.h"
#include "log/log_guard.h"
#include "log/notes.h"
#include "log/reasons.h"
#include "venue/confinement.h"
#include "venue/venue_trial.h"

#include <chrono>
#include <cstdlib>
#include <fstream>
#include <sstream>
#include <stdexcept>
#include <thread>

#include <fmt/format.h>

namespace gateway {

namespace {

// After so long it is told that the program has not answered.
constexpr auto longest_silence = std::chrono::seconds(4);

// How long a program may take to say what it is, and how much of that is kept.
constexpr auto longest_answer = std::chrono::seconds(10);
constexpr std::size_t longest_version = 4096;

std::string first_line(const std::vector<std::string> &command) {
    try {
        Process process(command);
        process.close_input();
        // One that does not know --version may do anything, and not end.
        const std::jthread limit([&process] { process.end_all_within(longest_answer); });
        const auto latest = std::chrono::steady_clock::now() + longest_answer;
        std::string text;
        for (std::string bytes = process.read_output(latest); !bytes.empty();
             bytes = process.read_output(latest)) {
            text += bytes.substr(0, longest_version - text.size());
        }
        if (process.wait() != "ended with status 0" || text.empty()) {
            return "unknown";
        }
        return text.substr(0, text.find('\n'));
    } catch (const std::exception &) {
        return "unknown";
    }
}

// The file of a program, as it is looked up in PATH.
std::filesystem::path find_program(const std::filesystem::path &program) {
    if (program.has_parent_path()) {
        return program;
    }
    const char *path = std::getenv("PATH");
    std::istringstream places(path == nullptr ? "" : path);
    for (std::string place; std::getline(places, place, ':');) {
        const std::filesystem::path file = std::filesystem::path(place) / program;
        if (std::filesystem::exists(file)) {
            return file;
        }
    }
    return program;
}

std::string read_program(const std::filesystem::path &program) {
    const std::filesystem::path path = find_program(program);
    std::ifstream file;
    if (!may_have_no_end(path)) {
        file.open(path, std::ios::binary);
    }
    std::ostringstream bytes;
    if (!file.is_open() || !(bytes << file.rdbuf())) {
        throw std::runtime_error(
            fmt::format("the venue's program {} can't be read", path.string()));
    }
    return bytes.str();
}

Day day_now(const Config &config) {
    Day day;
    day.version =
        first_line(words_of_start({config.program.string(), "--version"}, config.confined));
    day.program = sha256(read_program(config.program));
    day.configuration = config.configuration;
    day.venue = config.venue;
    day.gateway = version_text();
    return day;
}

OpenedDay begin_log(const Config &config, const Day &day, Database &database, LogGuard &guard,
                    std::optional<std::uint32_t> term, DayClock &clock) {
    if (!term) {
        throw std::runtime_error("the log has no begin");
    }
    Entry first;
    first.term = *term;
    const ExactMoment now = clock.exact_now();
    first.moment = text_of(now.cut());
    first.received = text_of(now);
    first.line = line_of(day);
    first.hash = hash_of(first);
    Batch batch;
    batch.entries.push_back(first);
    for (const std::string &text : config.opening_acts) {
        const Entry &before = batch.entries.back();
        Entry act = note_entry(before.place + 1, first.term, note_kinds::act, text, now);
        act.before = before.hash;
        act.hash = hash_of(act);
        batch.entries.push_back(std::move(act));
    }
    batch.seal = guard.begin(*database.reader(), batch.entries.back());
    database.writer()->commit(batch);
    return {first, batch.entries.back(), {}};
}

// The day's first entry, with this gateway's reasons where the venue's program gives notes.
OpenedDay begin_day_of(Day day, const Config &config, Database &database, LogGuard &guard,
                       std::optional<std::uint32_t> term, DayClock &clock,
                       const std::shared_ptr<spdlog::logger> &events) {
    if (try_configuration(config)) {
        day.reasons = built_in_reasons();
    }
    OpenedDay begun = begin_log(config, day, database, guard, term, clock);
    events->info("log begun date={} program=\"{}\"", clock.date(), day.version);
    begun.reasons = std::move(day.reasons);
    return begun;
}

// Where another day's log is in the place of this one's, an operator has to say what is to become
// of it.
void check_day(const Config &config, const Day &begun) {
    const std::string date =
        read_venue_file("entry 0", begun.configuration, config.firms.date).date;
    if (date != config.firms.date) {
        throw LogNotAccepted(fmt::format(
            "{} has the log of {}, and the day is {}: move it away, or give each day a log of its "
            "own by {{date}} in [log]",
            config.sqlite.empty() ? "the schema " + config.schema : config.sqlite.string(), date,
            config.firms.date));
    }
}

// A day goes on as it began.
void check_notes(const Day &begun, const Config &config) {
    if (!begun.reasons.empty() && !try_configuration(config)) {
        throw std::runtime_error("entry 0: the day gives reasons and the names of trades, and the "
                                 "venue's program of now does not know --notes");
    }
}

// Tells that the venue's program takes long, where it does.
std::jthread watch_start(const std::shared_ptr<spdlog::logger> &events) {
    return std::jthread([events](const std::stop_token &stop) {
        pause_for(longest_silence, stop);
        if (!stop.stop_requested()) {
            events->warn("venue does not answer at its start");
        }
    });
}

} // namespace

OpenedDay open_day(const Config &config, Database &database, LogGuard &guard,
                   std::optional<std::uint32_t> term, DayClock &clock,
                   const std::shared_ptr<spdlog::logger> &events) {
    const std::jthread watch = watch_start(events);
    const Day now = day_now(config);
    const auto reader = database.reader();
    const std::vector<Entry> found = reader->entries(0, 1);
    if (found.empty()) {
        return begin_day_of(now, config, database, guard, term, clock, events);
    }
    const Entry &first = found.front();
    check_link(first, 0, Digest{});
    const Day begun = day_of(first.line);
    check_day(config, begun);
    if (begun.configuration != now.configuration) {
        throw std::runtime_error("entry 0: the venue's configuration is not the one that the day "
                                 "began with");
    }
    if (begun.venue != now.venue) {
        throw std::runtime_error(
            fmt::format("entry 0: the log is that of the venue `{}`, and this one is `{}`",
                        begun.venue, now.venue));
    }
    guard.check_found(*reader);
    if (begun.program != now.program) {
        events->warn("the venue's program is another than at the day's begin was=\"{}\" is=\"{}\"",
                     begun.version, now.version);
        check_notes(begun, config);
    }
    const Entry last = reader->last_entry().value_or(first);
    if (last.place == first.place && last.hash != first.hash) {
        // It is the last one that has to be the sealed one.
        throw std::runtime_error("entry 0 was changed while it was read");
    }
    events->info("log found date={} entries={}", clock.date(), last.place);
    return {first, last, begun.reasons};
}

} // namespace gateway
