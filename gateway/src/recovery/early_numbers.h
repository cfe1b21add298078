// Keeps the numbers of sessions before their day has opened.
#ifndef GATEWAY_RECOVERY_EARLY_NUMBERS_H
#define GATEWAY_RECOVERY_EARLY_NUMBERS_H

#include "config/config.h"
#include "log/chain.h"
#include "log/checkpoint_file.h"
#include "log/database.h"
#include "recovery/session_recovery.h"
#include "session/session_event.h"

#include <map>
#include <memory>
#include <mutex>
#include <optional>
#include <string>
#include <string_view>

namespace gateway {

// A Logout that says when the day opens uses up a number of the session, and a stock engine counts
// it: so the day has to go on behind it, whichever gateway opens it. The numbers stand in the log
// of that day, which has no entry yet, and each is there before its Logout leaves. A file outside
// of the database says up to where: so this gateway takes no log from whose end one was cut off.
// Any thread may call it.
class EarlyNumbers {
  public:
    explicit EarlyNumbers(const Config &config) : config_(config) {}

    // Where the firm's session is. Throws std::runtime_error where that can't be known: the log is
    // away, another gateway writes it, or the day has begun.
    SessionNumbers of(const std::string &firm);
    // Puts an event there, with its session notes. Returns when that is safe on disk. Throws where
    // it may not be.
    void put(const std::string &firm, const SessionEvent &event);

  private:
    void open();
    void take_notes(std::string_view lines);
    Recovered &session_of(const std::string &firm);

    const Config &config_;
    std::mutex mutex_;
    // None until they are asked for, and again after a fault: then they are read anew.
    std::unique_ptr<Database> database_;
    std::unique_ptr<LogWriter> writer_;
    std::optional<Chain> chain_;         // of the log's seals, as they stand
    std::optional<CheckpointFile> sent_; // up to where they are of what has left
    std::map<std::string, Recovered> sessions_;
};

} // namespace gateway

#endif
