#include "venue/venue.h"

#include "common/frame.h"
#include "venue/confinement.h"

#include <algorithm>
#include <stdexcept>
#include <utility>

#include <fmt/format.h>

namespace gateway {

namespace {

using namespace std::chrono_literals;

// Of the venue's standard error, kept as its last words.
constexpr std::size_t longest_words = 2048;

// Past all lines of a venue, whose frames have 4,096 bytes at most.
constexpr std::size_t longest_line = 65536;

// How long a process that is to end, or whose output has ended, may take for it.
constexpr auto longest_end = 10s;

std::string_view take_word(std::string_view &text) {
    const std::size_t end = text.find(' ');
    const std::string_view word = text.substr(0, end);
    text.remove_prefix(end == std::string_view::npos ? text.size() : end + 1);
    return word;
}

} // namespace

Venue::Venue(Settings settings, Database &database, EntryFeed &feed, const Digest &first_hash,
             VenueListener &listener, Metrics &metrics, std::shared_ptr<spdlog::logger> events)
    : settings_(std::move(settings)), log_{database, feed, first_hash}, listener_(listener),
      metrics_(metrics), events_(std::move(events)),
      // The configuration, `%%`, and the line `#` whose mark says that the configuration was read.
      lines_before_(static_cast<std::size_t>(std::count(settings_.configuration.begin(),
                                                        settings_.configuration.end(), '\n')) +
                    2) {}

Venue::~Venue() {
    stop();
}

void Venue::start() {
    thread_ = std::jthread([this](std::stop_token stop) { run(std::move(stop)); });
}

void Venue::stop() {
    if (!thread_.joinable()) {
        return;
    }
    thread_.request_stop();
    {
        std::unique_lock lock(mutex_);
        // It may begin only now, once what was before it is in the log.
        while (!changed_.wait_for(lock, longest_end, [&] { return ended_; })) {
            if (running_ != nullptr) {
                events_->error("venue does not end and is killed");
                running_->kill();
            }
        }
    }
    thread_.join();
}

void Venue::abandon() {
    thread_.request_stop();
    const std::lock_guard lock(mutex_);
    if (running_ != nullptr) {
        running_->kill();
    }
}

void Venue::run(std::stop_token stop) {
    try {
        for (bool again = true; again;) {
            const std::string end = run_once(stop);
            again = !stop.stop_requested();
            if (again && !may_start()) {
                listener_.venue_failed(
                    fmt::format("the venue {} again and again; its last words: {}", end,
                                last_words_.empty() ? "none" : last_words_));
                again = false;
            }
        }
    } catch (const std::exception &fault) {
        listener_.venue_failed(fault.what());
    }
    const std::lock_guard lock(mutex_);
    ended_ = true;
    changed_.notify_all();
}

bool Venue::may_start() {
    const auto minute_ago = std::chrono::steady_clock::now() - std::chrono::minutes(1);
    while (!starts_.empty() && starts_.front() < minute_ago) {
        starts_.pop_front();
    }
    return starts_.size() < settings_.starts;
}

std::string Venue::run_once(std::stop_token stop) {
    listener_.venue_starts();
    {
        const std::lock_guard lock(mutex_);
        fed_.clear();
        replay_summary_ = {};
        last_words_.clear();
    }
    answered_lines_ = 0;
    last_given_.reset();
    starts_.push_back(std::chrono::steady_clock::now());
    metrics_.venue_started();
    Process process(words_of_start(settings_.command, settings_.confined));
    events_->info("venue started program=\"{}\"", settings_.command.front());
    const Running running(*this, process);
    const std::exception_ptr fault = serve(process, stop);
    const std::string end = process.wait();
    if (!stop.stop_requested()) {
        events_->error("venue {} words=\"{}\"", end, last_words_);
    }
    if (fault) {
        std::rethrow_exception(fault);
    }
    return end;
}

void Venue::set_running(Process *process) {
    const std::lock_guard lock(mutex_);
    running_ = process;
}

// Until the process ends, or says something at which it is killed: then that.
std::exception_ptr Venue::serve(Process &process, const std::stop_token &stop) {
    const std::jthread errors([&] { listen_to_errors(process); });
    try {
        Feeder feeder(process, log_, settings_.configuration + "%%\n#\n",
                      [this](std::vector<LoggedEntry> entries) { note_fed(std::move(entries)); });
        const std::stop_callback forward(stop, [&] { feeder.stop(); });
        const std::exception_ptr fault = read_all(process);
        feeder.stop();
        if (!process.end_within(longest_end)) {
            events_->error("venue says nothing any more, does not end, and is killed");
        }
        // What it has started and left may have its standard error still.
        process.kill();
        const std::string unfed = feeder.end();
        return fault || unfed.empty() ? fault : std::make_exception_ptr(std::runtime_error(unfed));
    } catch (...) {
        // It is not fed.
        process.kill();
        return std::current_exception();
    }
}

// Until its output ends. The other threads end where the process does.
std::exception_ptr Venue::read_all(Process &process) {
    try {
        read(process);
        return nullptr;
    } catch (...) {
        process.kill();
        return std::current_exception();
    }
}

void Venue::note_fed(std::vector<LoggedEntry> entries) {
    const std::lock_guard lock(mutex_);
    for (LoggedEntry &logged : entries) {
        replay_summary_.add(logged.entry);
        fed_.push_back({{logged.entry.place,
                         logged.entry.number.value_or(0),
                         moment_of(logged.entry.moment).value_or(Moment{}),
                         {}},
                        std::move(logged.entry.line),
                        logged.received});
    }
}

ReplaySummary Venue::replay_summary() {
    const std::lock_guard lock(mutex_);
    return replay_summary_;
}

void Venue::read(Process &process) {
    std::string buffer;
    for (;;) {
        const std::string bytes = process.read_output();
        if (bytes.empty()) {
            return;
        }
        buffer += bytes;
        std::string_view rest = buffer;
        for (std::size_t end = rest.find('\n'); end != std::string_view::npos;
             end = rest.find('\n')) {
            take_line(rest.substr(0, end));
            rest.remove_prefix(end + 1);
        }
        buffer.erase(0, buffer.size() - rest.size());
        if (buffer.size() > longest_line) {
            throw std::runtime_error(
                fmt::format("the venue gives a line of more than {} bytes", longest_line));
        }
        listener_.venue_pauses();
    }
}

void Venue::take_line(std::string_view line) {
    if (is_venue_note(line)) {
        take_note(line);
        return;
    }
    give_last();
    if (line.starts_with("done ") || line.starts_with("fault ")) {
        take_mark(line);
    } else {
        take_message(line);
    }
}

void Venue::take_message(std::string_view line) {
    std::string_view frame = line;
    Given given;
    given.firm = take_word(frame);
    given.frame = frame;
    std::replace(given.frame.begin(), given.frame.end(), '|', soh);
    last_given_ = std::move(given);
}

void Venue::take_note(std::string_view line) {
    if (!last_given_ || last_given_->note) {
        throw std::runtime_error(fmt::format("the venue gave a note of no message: {}", line));
    }
    last_given_->note = read_venue_note(line);
}

// The message behind which something else comes.
void Venue::give_last() {
    if (!last_given_) {
        return;
    }
    Given given = std::move(*last_given_);
    last_given_.reset();
    AnsweredEntry entry;
    {
        const std::lock_guard lock(mutex_);
        if (answered_lines_ >= lines_before_ && !fed_.empty()) {
            entry = fed_.front().entry;
            // It is this thread that takes it out.
            entry.line = fed_.front().line;
        }
    }
    if (entry.place == 0) {
        throw std::runtime_error(
            fmt::format("the venue gave {} a message for no entry: {}", given.firm, given.frame));
    }
    listener_.venue_gave(entry, std::move(given.firm), std::move(given.frame),
                         std::move(given.note));
}

void Venue::take_mark(std::string_view line) {
    std::string_view rest = line;
    const std::string_view verb = take_word(rest);
    const auto number = number_of(take_word(rest));
    // The first mark is that of the line `#`.
    const std::size_t expected = answered_lines_ == 0 ? lines_before_ : answered_lines_ + 1;
    if (!number || *number != expected) {
        throw std::runtime_error(fmt::format(
            "the venue gave the mark `{}` where that of line {} was due", line, expected));
    }
    if (verb == "fault") {
        throw std::runtime_error(
            fmt::format("the venue refuses entry {}: {}", expected - lines_before_, rest));
    }
    answered_lines_ = expected;
    if (answered_lines_ == lines_before_) {
        listener_.venue_answered(0, std::nullopt);
        return;
    }
    const auto deadline = rest.empty() ? std::nullopt : moment_of(rest);
    const auto entry = take_fed();
    if (!entry || (!rest.empty() && !deadline)) {
        throw std::runtime_error(
            fmt::format("the venue gave the mark `{}`{}", line, entry ? "" : " for no entry"));
    }
    metrics_.answered(std::chrono::steady_clock::now() - entry->received);
    listener_.venue_answered(entry->entry.place, deadline);
}

std::optional<Venue::Fed> Venue::take_fed() {
    const std::lock_guard lock(mutex_);
    if (fed_.empty()) {
        return std::nullopt;
    }
    std::optional<Fed> entry(std::move(fed_.front()));
    fed_.pop_front();
    return entry;
}

void Venue::listen_to_errors(Process &process) {
    std::string line;
    for (std::string bytes = process.read_errors(); !bytes.empty(); bytes = process.read_errors()) {
        line += bytes;
        for (std::size_t end = line.find('\n'); end != std::string::npos; end = line.find('\n')) {
            take_words(line.substr(0, end));
            line.erase(0, end + 1);
        }
        // A line without an end is told in pieces.
        if (line.size() > longest_words) {
            take_words(line);
            line.clear();
        }
    }
    if (!line.empty()) {
        take_words(line);
    }
}

void Venue::take_words(const std::string &line) {
    events_->warn("venue said=\"{}\"", line);
    const std::lock_guard lock(mutex_);
    last_words_.append(last_words_.empty() ? "" : " / ").append(line);
    if (last_words_.size() > longest_words) {
        last_words_.erase(0, last_words_.size() - longest_words);
    }
}

} // namespace gateway
