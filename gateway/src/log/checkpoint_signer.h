// Signs each second where the log stands, and keeps the last signature outside of the database.
#ifndef GATEWAY_LOG_CHECKPOINT_SIGNER_H
#define GATEWAY_LOG_CHECKPOINT_SIGNER_H

#include "log/checkpoint_file.h"
#include "log/checkpoint_sender.h"
#include "log/log.h"
#include "log/seals.h"

#include <chrono>
#include <memory>
#include <string>
#include <thread>
#include <vector>

#include <spdlog/logger.h>

namespace gateway {

// Of the gateway that speaks, on a thread of its own: no commit waits for it. Signs at once, so at
// each change of term; then less than a second after an entry was committed; after some seconds
// without one once more, which shows those who follow that it is there; and at the end.
class CheckpointSigner {
  public:
    // last is the log's last checkpoint; of number 0 where it has none. `send` is the program that
    // is given each checkpoint; empty for none.
    CheckpointSigner(Log &log, Sealer sealer, CheckpointFile file, Checkpoint last,
                     const std::vector<std::string> &send, std::shared_ptr<spdlog::logger> events);
    ~CheckpointSigner() { stop(); }
    CheckpointSigner(const CheckpointSigner &) = delete;
    CheckpointSigner &operator=(const CheckpointSigner &) = delete;

    // Signs where the log ends, as the end of its day or not, and returns when that is on disk.
    void end(bool is_end_of_day);

  private:
    using Clock = std::chrono::steady_clock;

    void run(const std::stop_token &stop);
    bool is_due();
    // The file is written once the log has the row: so what the file says, the log has.
    void sign(bool is_end);
    void keep(const Checkpoint &checkpoint);
    void stop();

    // Of the thread, and of end() once that has ended.
    Log &log_;
    Sealer sealer_;
    CheckpointFile file_;
    std::shared_ptr<spdlog::logger> events_;
    const std::unique_ptr<CheckpointSender> sender_; // null for none
    Checkpoint last_;
    Clock::time_point signed_at_;
    std::string told_; // why the last one could not be kept

    std::jthread thread_;
};

} // namespace gateway

#endif
