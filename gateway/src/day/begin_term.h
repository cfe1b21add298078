// Takes a gateway from its start to its term on a venue's log.
#ifndef GATEWAY_DAY_BEGIN_TERM_H
#define GATEWAY_DAY_BEGIN_TERM_H

#include "day/leader.h"

#include <functional>
#include <memory>

namespace gateway {

// Feeds the log to the venue, also while another gateway writes it. Returns when this one speaks
// and all of the log is answered and agrees; null where the gateway is to stop. It takes over where
// `may` says so; `follows` is called where another gateway speaks first. Throws std::runtime_error
// where the log can't be gone on with, or the venue gives something else than it says was sent.
std::unique_ptr<Leader> begin_term(
    VenueDay &day, Engine &engine, const std::function<bool()> &may,
    const std::function<void()> &follows = [] {});

} // namespace gateway

#endif
