#include "service/ended_day.h"

#include "config/log_location.h"
#include "log/checkpoint_file.h"
#include "log/notes.h"

#include <algorithm>
#include <cstdint>
#include <exception>
#include <stdexcept>
#include <vector>

namespace gateway {

namespace {

bool ends_day(const Entry &entry) {
    const auto note = note_of(entry.line);
    return note && day_end_in(*note) != DayEnd::as_configured;
}

// Throws where this is not what stood in the log up to an entry of this hash.
void check_piece(const std::vector<Entry> &piece, std::uint32_t from, const Digest &hash) {
    if (piece.empty() || piece.back().hash != hash) {
        throw std::runtime_error("the log is not as it was signed");
    }
    Digest before = piece.front().before;
    for (const Entry &entry : piece) {
        check_link(entry, from++, before);
        before = entry.hash;
    }
}

// Few entries stand behind an operator's order: it is looked for from the end, whose hash is
// signed. From there each piece has the hash of the one in front of it.
bool was_ordered(LogReader &log, const Position &at) {
    constexpr std::uint32_t at_once = 4096;
    Digest hash = at.hash;
    for (std::uint32_t end = at.place + 1; end != 0;) {
        const std::uint32_t from = end - std::min(end, at_once);
        const std::vector<Entry> piece = log.entries(from, end - from);
        check_piece(piece, from, hash);
        if (std::ranges::any_of(piece, ends_day)) {
            return true;
        }
        hash = piece.front().before;
        end = from;
    }
    return false;
}

// Whether the log has this end, and nothing behind it.
bool ends_so(LogReader &log, const Checkpoint &kept) {
    const auto last = log.last_entry();
    return kept.is_end && last && last->place == kept.at.place && last->hash == kept.at.hash;
}

bool is_ended(Config config) {
    const auto file = checkpoint_path(config.checkpoints, config.venue, config.firms.date);
    if (!std::filesystem::exists(file) || says_that_it_goes_on(file)) {
        return false;
    }
    const auto begun = begun_configuration(config);
    const auto log = begun ? read_log(config) : nullptr;
    if (log == nullptr) {
        return false;
    }
    config.configuration = *begun;
    const auto kept = CheckpointFile(config.checkpoints, sealer_of(config)).read();
    return kept && ends_so(*log, *kept) && was_ordered(*log, kept->at);
}

} // namespace

bool is_ended_by_order(const std::vector<Config> &configs, std::string_view date) {
    try {
        return std::ranges::all_of(configs, [&](const Config &config) {
            return config.firms.date == date && is_ended(config);
        });
    } catch (const std::exception &) {
        return false;
    }
}

} // namespace gateway
