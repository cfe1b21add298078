#include "day/begin_term.h"

#include "recovery/follower.h"
#include "recovery/log_watch.h"

#include <optional>

namespace gateway {

namespace {

// Whether the log has a begin, or this gateway has a term, which is put into `term`. False where it
// is to stop.
bool wait_for_log(VenueDay &day, const std::function<bool()> &may,
                  std::optional<std::uint32_t> &term) {
    LogWatch watch(*day.database, day.events, may);
    const bool is_there = watch.watch(day.status.stopping(),
                                      [](LogReader &log) { return log.last_entry().has_value(); });
    term = watch.term();
    return is_there;
}

} // namespace

std::unique_ptr<Leader> begin_term(VenueDay &day, Engine &engine, const std::function<bool()> &may,
                                   const std::function<void()> &follows) {
    std::optional<std::uint32_t> term;
    if (!wait_for_log(day, may, term)) {
        return nullptr;
    }
    auto follower = std::make_unique<Follower>(day, term);
    if (!term) {
        follows();
        term = follower->follow(may);
    }
    if (!term) {
        return nullptr;
    }
    day.has_term = true;
    day.metrics.speaks();
    const auto end = follower->catch_up();
    return end ? std::make_unique<Leader>(day, std::move(follower), *end, *term, engine) : nullptr;
}

} // namespace gateway
