#include "log/log_guard.h"

#include <utility>

#include <fmt/format.h>

namespace gateway {

namespace {

// Seals, or entries, that are read at once.
constexpr std::uint32_t chunk = 1024;

// In the file before there is an entry: any log follows on it.
const Digest nothing{};

// The last entry. Throws where one does not follow on the one before it.
Entry end_of_chain(LogReader &log) {
    std::vector<Entry> some;
    std::uint32_t place = 0;
    Entry last;
    do {
        some = log.entries(place, chunk);
        for (Entry &entry : some) {
            check_link(entry, place++, last.hash);
            last = std::move(entry);
        }
    } while (some.size() == chunk);
    return last;
}

bool has_entry(LogReader &log, std::uint32_t place, const Digest &hash) {
    const std::vector<Entry> found = log.entries(place, 1);
    return !found.empty() && found.front().place == place && found.front().hash == hash;
}

} // namespace

LogGuard::LogGuard(Sealer sealer, const std::filesystem::path &checkpoints,
                   std::shared_ptr<spdlog::logger> events, Notes notes)
    : sealer_(std::move(sealer)), file_(checkpoints, sealer_),
      early_file_(CheckpointFile::before_opening(checkpoints, sealer_)), events_(std::move(events)),
      notes_(std::move(notes)) {}

Seal LogGuard::begin(LogReader &log, const Entry &last) {
    const auto kept = was_kept_ ? file_.read() : std::optional<Checkpoint>();
    if (kept && kept->at.hash != nothing) {
        throw LogNotAccepted(
            fmt::format("the log is empty, and had entry {} by the checkpoint in {}{}",
                        kept->at.place, file_.path().string(), way_out()));
    }
    read_on(log);
    // So a start that comes after the first entry, and before the first signature, knows of it.
    if (was_kept_) {
        file_.write(sealer_.sign(Checkpoint{}));
    }
    const Position &before = sealed_.at;
    sealed_ =
        sealer_.seal({last.term, last.place, last.hash, 0, {}, before.seal + 1, before.notes});
    return sealed_;
}

// The seals first: a log that somebody has changed is never for an operator to accept.
void LogGuard::check_found(LogReader &log) {
    signed_ = log.last_checkpoint().value_or(Checkpoint{});
    if (const std::uint32_t count = log.count_checkpoints(); count != signed_.number) {
        events_->error("checkpoints are missing in the log of={} last={}", count, signed_.number);
    }
    read_on(log);
    const auto kept = file_.read();
    was_kept_ = kept.has_value();
    if (kept) {
        read_on(log); // a gateway that has the same folder may have gone on meanwhile
        check_kept(log, *kept);
    }
    check_signed(signed_);
}

void LogGuard::check_kept(LogReader &log, const Checkpoint &kept) {
    if (kept.at.hash != nothing && !has_entry(log, kept.at.place, kept.at.hash)) {
        const auto last = log.last_entry();
        const std::uint32_t end = last ? last->place : 0;
        not_accepted(
            kept,
            end < kept.at.place
                ? fmt::format("the log ends at entry {}: it was cut off, or is an old backup", end)
                : fmt::format("entry {} is another one: the log is not the same", kept.at.place));
    }
    // By the seals, which were verified one behind the other: what a database answers here it need
    // not answer elsewhere.
    if (kept.at.seal > sealed_.at.seal) {
        not_whole(
            log, kept,
            fmt::format("the log is sealed up to entry {} alone: it was cut off, or is an old "
                        "backup",
                        column_of_place(sealed_.at.place)));
    }
    if (kept.number == 0) {
        return; // of a begin, or of a loss that an operator has accepted
    }
    const auto row = log.checkpoint(kept.number);
    if (!row || *row != kept) {
        not_whole(log, kept,
                  fmt::format("checkpoint {} is {}: the log was cut off, or is an old backup",
                              kept.number, row ? "another one" : "not there"));
    }
}

// Where a seal was taken out, nothing is for an operator to accept.
void LogGuard::not_whole(LogReader &log, const Checkpoint &kept, const std::string &what) {
    if (const auto last = log.last_entry()) {
        check_sealed(log, *last);
    }
    not_accepted(kept, what);
}

void LogGuard::not_accepted(const Checkpoint &kept, const std::string &what) const {
    throw LogNotAccepted(fmt::format("{}; by the checkpoint in {} it had entry {}{}", what,
                                     file_.path().string(), kept.at.place, way_out()));
}

void LogGuard::read_on(LogReader &log) {
    if (was_kept_ && !early_) {
        early_ = early_file_.read().value_or(Checkpoint{}).at;
    }
    std::vector<Seal> seals;
    do {
        seals = log.seals(sealed_.at.seal + 1, chunk);
        for (const Seal &seal : seals) {
            if (!sealer_.follows(seal, sealed_.at)) {
                tell_change(log, seal);
            }
            if (early_ && seal.at.seal == early_->seal && seal.at.notes != early_->notes) {
                not_early();
            }
            notes_(seal.notes);
            sealed_ = seal;
        }
    } while (seals.size() == chunk);
    if (early_ && sealed_.at.seal < early_->seal) {
        not_early();
    }
    keep_last(log);
}

// Else a firm would be sent a number a second time that a Logout has used up.
void LogGuard::not_early() const {
    throw LogNotAccepted(fmt::format(
        "the log does not go on behind the Logouts that left here before the day opened, "
        "the last of which is in {}: it was cut off, or is an old backup{}",
        early_file_.path().string(), way_out()));
}

// The first entry that does not follow on the one before it, where there is one behind the last
// seal that was right; else up to where it is.
void LogGuard::tell_change(LogReader &log, const Seal &wrong) {
    Digest before = sealed_.at.hash;
    // None is sealed where the last seal is of before the day: its place is one before 0.
    std::uint32_t place = sealed_.at.seal == 0 ? 0 : sealed_.at.place + 1;
    if (wrong.at.place >= place && wrong.at.place != before_day) {
        for (const Entry &entry : log.entries(place, wrong.at.place - place + 1)) {
            check_link(entry, place++, before);
            before = entry.hash;
        }
    }
    throw std::runtime_error(fmt::format(
        "the log was changed {}: seal {} is not that of this venue's gateways, for this day, its "
        "configuration and what stands there",
        wrong.at.place == before_day ? "before the day opened"
                                     : fmt::format("at or before entry {}", wrong.at.place),
        wrong.at.seal));
}

// What the other gateway has signed since this one looked last.
void LogGuard::keep_last(LogReader &log) {
    const auto last = log.last_checkpoint();
    if (!last || last->number <= signed_.number) {
        return;
    }
    check_signed(*last);
    file_.write(*last);
    signed_ = *last;
    was_kept_ = true;
}

// The next one names it, and has the number behind it.
void LogGuard::check_signed(const Checkpoint &checkpoint) const {
    if (checkpoint.number != 0 && !sealer_.is_signed(checkpoint)) {
        throw std::runtime_error(
            fmt::format("checkpoint {} at entry {} has the signature of none of the log's gateways",
                        checkpoint.number, checkpoint.at.place));
    }
}

void LogGuard::check_end(LogReader &log, const Entry &last) {
    check_sealed(log, last);
    if (const auto kept = file_.read()) {
        check_kept(log, *kept);
    }
    if (!was_kept_) {
        throw LogNotAccepted(fmt::format(
            "there is no checkpoint in {}: whether entry {} is the last of the log is not known{}",
            file_.path().string(), last.place, way_out()));
    }
}

void LogGuard::check_sealed(LogReader &log, const Entry &last) {
    read_on(log);
    const auto event = log.last_connection();
    const Position &at = sealed_.at;
    const Position end{
        at.term, last.place, last.hash, event ? event->place : 0, event ? event->hash : Digest{},
        at.seal, at.notes};
    if (at.seal == 0 || at.place != end.place || at.hash != end.hash) {
        throw std::runtime_error(
            fmt::format("entry {} is not sealed: no gateway of this log has put it there. The last "
                        "seal is that of entry {}",
                        last.place, column_of_place(at.place)));
    }
    if (!(at == end)) {
        throw std::runtime_error(
            fmt::format("row {} of the table connection is not sealed: no gateway of this log has "
                        "put it there. The last seal is that of row {}",
                        end.event, at.event));
    }
}

std::string LogGuard::way_out() const {
    return ". Put the log back, or accept what is lost: mireseason-admin log accept-loss, or "
           "mireseason-gateway --accept-loss CONFIG";
}

std::unique_ptr<CheckpointSigner> LogGuard::signer(Log &log,
                                                   const std::vector<std::string> &send) const {
    return std::make_unique<CheckpointSigner>(log, sealer_, file_, signed_, send, events_);
}

void LogGuard::sign_end(LogReader &log, LogWriter &writer, std::uint32_t term) {
    const Entry last = end_of_chain(log);
    check_found(log);
    check_end(log, last);
    Position end = sealed_.at;
    end.term = term;
    signed_ = sealer_.sign({signed_.number + 1, end, signed_.signature, true, {}});
    Batch batch;
    batch.checkpoints.push_back(signed_);
    writer.commit(batch);
    file_.write(signed_);
}

std::string LogGuard::accept(LogReader &log, const std::function<void(const Entry &last)> &commit) {
    // What is kept stands until the act is committed: to read the log puts nothing there.
    signed_ = log.last_checkpoint().value_or(Checkpoint{});
    was_kept_ = false;
    // A file that is none is given up, too.
    std::string had = "nothing that can be read";
    try {
        const auto kept = file_.read();
        had = kept ? fmt::format("entry {}", kept->at.place) : "nothing";
    } catch (const std::runtime_error &) {
    }
    const auto last = log.last_entry();
    if (last) {
        check_sealed(log, *last);
    }
    check_signed(signed_);
    commit(last.value_or(Entry{}));
    read_on(log);
    was_kept_ = true;
    file_.write(sealer_.sign({0, sealed_.at, {}, false, {}}));
    early_file_.remove();
    return fmt::format("{}: the log goes on after {}; the checkpoint that was kept had {}",
                       file_.path().string(),
                       last ? fmt::format("entry {}", last->place) : "nothing", had);
}

} // namespace gateway
