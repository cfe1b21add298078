#include "recovery/accept_loss.h"

#include "common/moment.h"
#include "config/log_location.h"
#include "log/act_event.h"
#include "log/chain.h"
#include "log/log_guard.h"
#include "recovery/open_day.h"

#include <stdexcept>

#include <fmt/format.h>
#include <fmt/ranges.h>

namespace gateway {

namespace {

std::uint32_t term_in(Database &database) {
    const auto term = database.take_over();
    if (!term) {
        throw std::runtime_error(
            "another gateway writes the log, and this one can write nothing "
            "there: accept the loss at that one, unless it was accepted there");
    }
    return *term;
}

// The log is sealed up to this entry, where that seal stands.
void commit_acts(const Config &config, const std::vector<std::string> &texts, Database &database,
                 const Entry &last, Position sealed) {
    sealed.term = term_in(database);
    DayClock clock(config.firms.date);
    clock.not_before(ExactMoment::end_of(moment_of(last.moment).value_or(Moment{})));
    Batch batch;
    std::uint32_t place = last.place;
    for (const std::string &text : texts) {
        batch.entries.push_back(
            note_entry(++place, sealed.term, note_kinds::act, text, clock.exact_now()));
    }
    Chain chain(sealed, sealer_of(config));
    chain.link(batch);
    chain.seal(batch);
    database.writer()->commit(batch);
}

// In one transaction with its first entry: a day that opened without them would not be halted.
void begin_with_acts(Config config, const std::vector<std::string> &texts, Database &database,
                     LogGuard &guard, const std::shared_ptr<spdlog::logger> &events) {
    const std::uint32_t term = term_in(database);
    DayClock clock(config.firms.date);
    config.opening_acts = texts;
    open_day(config, database, guard, term, clock, events);
}

} // namespace

std::string accept_loss(const Config &config, const std::vector<Act> &acts,
                        const std::shared_ptr<spdlog::logger> &events) {
    const std::vector<std::string> texts = texts_of(acts);
    const auto database = open_database(config);
    const auto reader = database->reader();
    LogGuard guard(sealer_of(config), config.checkpoints, events);
    const bool is_gone = !reader->last_entry();
    const std::string said = guard.accept(*reader, [&](const Entry &last) {
        if (is_gone) {
            begin_with_acts(config, texts, *database, guard, events);
        } else {
            commit_acts(config, texts, *database, last, guard.sealed());
        }
    });
    for (const Act &act : acts) {
        events->warn("loss accepted {} {}", said, event_of(act));
    }
    return said;
}

} // namespace gateway
