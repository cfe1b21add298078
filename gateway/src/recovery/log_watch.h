// Watches the log of the gateway that speaks, and takes over at that gateway's end.
#ifndef GATEWAY_RECOVERY_LOG_WATCH_H
#define GATEWAY_RECOVERY_LOG_WATCH_H

#include "log/database.h"

#include <functional>
#include <memory>
#include <optional>
#include <stop_token>
#include <string>

#include <spdlog/logger.h>

namespace gateway {

// Looks at the log again and again, through databases that go away and come back, and takes over
// when the database says that the other gateway has gone.
class LogWatch {
  public:
    // may_take_over is asked before the database is, after each look.
    LogWatch(Database &database, std::shared_ptr<spdlog::logger> events,
             std::function<bool()> may_take_over);

    // Until `look` says that this is enough, or this gateway speaks: then term() is its term. False
    // where the stop was asked for. Throws what `look` throws, unless the database is away.
    bool watch(const std::stop_token &stop, const std::function<bool(LogReader &)> &look);

    std::optional<std::uint32_t> term() const { return term_; }

  private:
    bool turn(const std::function<bool(LogReader &)> &look);
    void tell(const std::string &fault);

    Database &database_;
    std::shared_ptr<spdlog::logger> events_;
    std::function<bool()> may_take_over_;
    std::optional<std::uint32_t> term_;
    std::unique_ptr<LogReader> reader_;
    std::string told_;
};

} // namespace gateway

#endif
