#include "log/checkpoint_sender.h"

#include <algorithm>
#include <exception>
#include <stop_token>
#include <utility>

namespace gateway {

namespace {

using namespace std::chrono_literals;

// Lines that wait for the program.
constexpr std::size_t most_lines = 64;

// Between two starts of it.
constexpr auto between_starts = 10s;

// How long it may take for what is left, at the end.
constexpr auto longest_end = 2s;

// And for a line: a pipe that is full has more than a minute's. What the program has started may
// keep its input, and read nothing, after the program is killed.
constexpr auto longest_line = 10s;

// What it says itself goes nowhere: a pipe that nobody reads would stop it.
std::vector<std::string> silenced(const std::vector<std::string> &command) {
    std::vector<std::string> words{"/bin/sh", "-c", "exec \"$@\" >/dev/null 2>&1", "sh"};
    words.insert(words.end(), command.begin(), command.end());
    return words;
}

} // namespace

CheckpointSender::CheckpointSender(const std::vector<std::string> &command,
                                   std::shared_ptr<spdlog::logger> events)
    : command_(silenced(command)), events_(std::move(events)),
      thread_([this](const std::stop_token &stop) { run(stop); }) {}

// A program that reads nothing would keep the thread waiting.
CheckpointSender::~CheckpointSender() {
    thread_.request_stop();
    std::unique_lock lock(mutex_);
    if (!changed_.wait_for(lock, longest_end, [this] { return is_done_; }) && program_) {
        program_->kill();
    }
}

void CheckpointSender::send(const std::string &text) {
    std::string line = text.substr(0, text.find_last_not_of('\n') + 1);
    std::ranges::replace(line, '\n', '\t');
    {
        const std::lock_guard lock(mutex_);
        lines_.push_back(line + '\n');
        if (lines_.size() > most_lines) {
            lines_.pop_front();
        }
    }
    changed_.notify_one();
}

void CheckpointSender::run(const std::stop_token &stop) {
    for (std::string line = next(stop); !line.empty(); line = next(stop)) {
        try {
            if (const auto one = program()) {
                write(*one, line);
            }
        } catch (const std::exception &fault) {
            events_->error("checkpoints are not sent cause=\"{}\"", fault.what());
        }
    }
    end_program();
}

std::string CheckpointSender::next(const std::stop_token &stop) {
    std::unique_lock lock(mutex_);
    changed_.wait(lock, stop, [this] { return !lines_.empty(); });
    if (lines_.empty()) {
        return {};
    }
    std::string line = std::move(lines_.front());
    lines_.pop_front();
    return line;
}

std::shared_ptr<Process> CheckpointSender::program() {
    const std::lock_guard lock(mutex_);
    const auto now = Clock::now();
    if (!program_ && (started_at_ == Clock::time_point{} || now - started_at_ >= between_starts)) {
        started_at_ = now;
        program_ = std::make_shared<Process>(command_);
    }
    return program_;
}

void CheckpointSender::write(Process &program, const std::string &line) {
    if (program.write(line, Clock::now() + longest_line)) {
        return;
    }
    program.kill();
    events_->error("checkpoints are not sent cause=\"the program {}\"", program.wait());
    const std::lock_guard lock(mutex_);
    program_.reset();
}

void CheckpointSender::end_program() {
    std::shared_ptr<Process> last;
    {
        const std::lock_guard lock(mutex_);
        last = program_;
    }
    if (last) {
        last->close_input();
        last->end_within(longest_end);
    }
    const std::lock_guard lock(mutex_);
    is_done_ = true;
    changed_.notify_all();
}

} // namespace gateway
