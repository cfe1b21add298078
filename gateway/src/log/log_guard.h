// Checks a log against its seals and against the checkpoint that was kept outside of its database.
#ifndef GATEWAY_LOG_LOG_GUARD_H
#define GATEWAY_LOG_LOG_GUARD_H

#include "log/checkpoint_file.h"
#include "log/checkpoint_signer.h"
#include "log/database.h"
#include "log/log.h"
#include "log/seals.h"

#include <filesystem>
#include <functional>
#include <memory>
#include <optional>
#include <stdexcept>
#include <string>
#include <string_view>
#include <vector>

#include <spdlog/logger.h>

namespace gateway {

// The log is not the one that this gateway left, or can't be known to be: it is shorter, or an old
// backup. It is for the operator to accept what is lost.
class LogNotAccepted : public std::runtime_error {
  public:
    using std::runtime_error::runtime_error;
};

// One thread at a time.
class LogGuard {
  public:
    // Is told the session notes of each seal that was verified, in their order.
    using Notes = std::function<void(std::string_view lines)>;

    LogGuard(
        Sealer sealer, const std::filesystem::path &checkpoints,
        std::shared_ptr<spdlog::logger> events, Notes notes = [](std::string_view) {});

    const Sealer &sealer() const { return sealer_; }

    // Before the first batch of the day: throws LogNotAccepted where there was one, which is not
    // given up just now. The seal is that of the batch, whose last entry this is; it follows on
    // those of the session notes from before the day, which are verified. Throws as read_on() does.
    Seal begin(LogReader &log, const Entry &last);
    // Verifies all seals of the log that a start found, and holds it against the checkpoint that
    // was kept. Throws as read_on() and begin() do.
    void check_found(LogReader &log);
    // Verifies the seals behind those that were, and keeps what the gateway that speaks has signed.
    // Throws std::runtime_error that names the entry whose seal is not right, and LogNotAccepted
    // where those from before the day do not have all that left here.
    void read_on(LogReader &log);
    // All is read, and nobody else writes: throws where the last entry is not sealed, and
    // LogNotAccepted where it is not known whether it is the last.
    void check_end(LogReader &log, const Entry &last);
    // Where the last seal that was verified stands.
    const Position &sealed() const { return sealed_.at; }
    // Whether a checkpoint of the log is kept: without one check_end() throws.
    bool has_kept() const { return was_kept_; }

    // Who signs the log, from now on, and gives each checkpoint to a program, if there is one.
    std::unique_ptr<CheckpointSigner> signer(Log &log,
                                             const std::vector<std::string> &send = {}) const;

    // Signs the end of a day that nobody writes any more, in this term, once the log is right:
    // throws as check_found() and check_end().
    void sign_end(LogReader &log, LogWriter &writer, std::uint32_t term);

    // Takes the log as it is, which is sealed up to its end. First `commit` puts it behind the last
    // entry that the loss is accepted, or begins the log with that: it is given an empty one then.
    // What the checkpoint that was kept says beyond is given up, and returned for the operator.
    std::string accept(LogReader &log, const std::function<void(const Entry &last)> &commit);

  private:
    [[noreturn]] void tell_change(LogReader &log, const Seal &wrong);
    [[noreturn]] void not_early() const;
    void keep_last(LogReader &log);
    void check_signed(const Checkpoint &checkpoint) const;
    void check_sealed(LogReader &log, const Entry &last);
    void check_kept(LogReader &log, const Checkpoint &kept);
    [[noreturn]] void not_whole(LogReader &log, const Checkpoint &kept, const std::string &what);
    [[noreturn]] void not_accepted(const Checkpoint &kept, const std::string &what) const;
    std::string way_out() const;

    Sealer sealer_;
    CheckpointFile file_;
    CheckpointFile early_file_;
    std::shared_ptr<spdlog::logger> events_;
    Notes notes_;
    std::optional<Position> early_; // where it says that the seals from before the day were
    Seal sealed_;                   // the last one that was verified
    Checkpoint signed_;             // the log's last one; of number 0 where it has none
    bool was_kept_ = true;          // a checkpoint that is not given up, or one came since
};

} // namespace gateway

#endif
