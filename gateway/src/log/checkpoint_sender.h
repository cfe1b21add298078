// Gives each checkpoint to a program of the operator as soon as it is made, so that it leaves this
// host.
#ifndef GATEWAY_LOG_CHECKPOINT_SENDER_H
#define GATEWAY_LOG_CHECKPOINT_SENDER_H

#include "base/process.h"

#include <chrono>
#include <condition_variable>
#include <deque>
#include <memory>
#include <mutex>
#include <string>
#include <thread>
#include <vector>

#include <spdlog/logger.h>

namespace gateway {

// One program that lives as long as this does, and is given a line a checkpoint on its standard
// input. It has no key of the gateway's and no descriptor. Nobody waits for it: what it does not
// take is left out, the oldest first, and one that has ended is started again after a while. Any
// thread may send.
class CheckpointSender {
  public:
    CheckpointSender(const std::vector<std::string> &command,
                     std::shared_ptr<spdlog::logger> events);
    // Gives the program a moment for what is left, and ends it.
    ~CheckpointSender();
    CheckpointSender(const CheckpointSender &) = delete;
    CheckpointSender &operator=(const CheckpointSender &) = delete;

    // A checkpoint as it is kept outside of the database, which has several lines.
    void send(const std::string &text);

  private:
    using Clock = std::chrono::steady_clock;

    void run(const std::stop_token &stop);
    // The next line; empty where the stop was asked for and none is left.
    std::string next(const std::stop_token &stop);
    // The program, which is started where it is time for that; null where it is not.
    std::shared_ptr<Process> program();
    void write(Process &program, const std::string &line);
    void end_program();

    const std::vector<std::string> command_;
    std::shared_ptr<spdlog::logger> events_;

    std::mutex mutex_;
    std::condition_variable_any changed_;
    std::deque<std::string> lines_;
    std::shared_ptr<Process> program_;
    bool is_done_ = false; // the thread has no more to do

    Clock::time_point started_at_{}; // of the thread
    std::jthread thread_;
};

} // namespace gateway

#endif
