// Whether the gateway goes on, and how far it has come.
#ifndef GATEWAY_HEALTH_STATUS_H
#define GATEWAY_HEALTH_STATUS_H

#include "health/condition.h"
#include "health/liveness.h"

#include <atomic>
#include <chrono>
#include <condition_variable>
#include <memory>
#include <mutex>
#include <optional>
#include <stop_token>
#include <string>

#include <spdlog/logger.h>

namespace gateway {

// Any thread may ask for the end or tell a failure; the one that runs the gateway waits for either.
class Status {
  public:
    explicit Status(std::shared_ptr<spdlog::logger> events);

    void ask_to_stop(const std::string &why);
    // The first cause is the one that is told, and its status is that of the process.
    void fail(const std::string &cause, int status = 1);
    // What fails from now on is a part of the end.
    void end();

    // Whether it is to stop; waits for that so long at most.
    bool wait(std::chrono::milliseconds longest);
    std::string why();
    std::optional<std::string> failure();
    // Of the process: 0 without a failure.
    int exit_status();

    // What the gateway does now; of any thread.
    void is_now(Phase phase) { phase_ = phase; }
    Phase phase() const { return phase_; }
    // Where the parts that do the work show that they do.
    Liveness &liveness() { return liveness_; }

    // Asked to stop, or failed.
    std::stop_token stopping() const { return stopping_.get_token(); }
    std::stop_token failed() const { return failed_.get_token(); }

  private:
    std::shared_ptr<spdlog::logger> events_;
    std::atomic<Phase> phase_{Phase::opens};
    Liveness liveness_;
    std::stop_source stopping_;
    std::stop_source failed_;

    std::mutex mutex_;
    std::condition_variable changed_;
    bool ending_ = false;
    std::string why_;
    std::optional<std::string> failure_;
    int exit_status_ = 0;
};

} // namespace gateway

#endif
