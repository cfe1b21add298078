#include "venue/venue_trial.h"

#include "base/printable.h"
#include "base/process.h"
#include "log/reasons.h"
#include "venue/confinement.h"

#include <chrono>
#include <stdexcept>
#include <string_view>
#include <thread>

#include <fmt/format.h>

namespace gateway {

namespace {

constexpr auto longest_trial = std::chrono::seconds(10);
// What it says of a fault is one short line.
constexpr std::size_t longest_line = 200;

// How a run of the program ends, and the first line that it says on standard error.
struct Trial {
    std::string end;
    std::string told;
};

constexpr std::string_view done = "ended with status 0";
constexpr std::string_view wrong_arguments = "ended with status 2";

std::string read_to_end(std::string (Process::*read)(Process::Time), Process &process,
                        Process::Time latest) {
    constexpr std::size_t longest = no_landlock.size() + longest_line;
    std::string text;
    for (std::string bytes = (process.*read)(latest); !bytes.empty();
         bytes = (process.*read)(latest)) {
        text += bytes.substr(0, longest - text.size());
    }
    return text;
}

// The first line that is the program's own.
std::string first_line_of(std::string_view told) {
    if (told.starts_with(no_landlock)) {
        told.remove_prefix(no_landlock.size());
    }
    return std::string(told.substr(0, told.find('\n')));
}

Trial run_with(const Config &config, bool notes) {
    Process process(words_of_start(with_notes(config.command, notes), config.confined));
    const std::jthread limit([&process] { process.end_all_within(longest_trial); });
    const auto latest = std::chrono::steady_clock::now() + longest_trial;
    process.write(config.configuration + "%%\n", latest);
    process.close_input();
    read_to_end(&Process::read_output, process, latest);
    Trial trial;
    trial.told = first_line_of(read_to_end(&Process::read_errors, process, latest));
    trial.end = process.wait();
    return trial;
}

} // namespace

bool try_configuration(const Config &config) {
    const Trial noted = run_with(config, true);
    const bool knows_notes = noted.end != wrong_arguments;
    const Trial trial = knows_notes ? noted : run_with(config, false);
    if (trial.end != done) {
        throw std::runtime_error(
            fmt::format("the venue's program {} does not take the configuration: {}: {}",
                        config.command.front(), trial.end, printable(trial.told, longest_line)));
    }
    return knows_notes;
}

} // namespace gateway
