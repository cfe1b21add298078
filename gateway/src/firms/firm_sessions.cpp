#include "firms/firm_sessions.h"

#include "common/frame.h"
#include "config/firm_row.h"
#include "firms/on_behalf.h"
#include "session/session_names.h"

#include <algorithm>
#include <stdexcept>

#include <fmt/format.h>

namespace gateway {

FirmSessions::FirmSessions(VenueDay &day, Log &log, const States &states)
    : day_(day), log_(log), authenticator_(day.config), rows_(day, log) {
    open_firms(states);
    check_known(states, day_.config.firms.names);
}

void FirmSessions::open_firms(const States &states) {
    for (const std::string &name : day_.config.firms.names) {
        const auto state = states.find(name);
        const FirmState found = state == states.end() ? FirmState{} : state->second;
        const auto credentials = day_.config.credentials.find(name);
        const Credentials own =
            credentials == day_.config.credentials.end() ? Credentials{} : credentials->second;
        Firm &firm = firms_
                         .try_emplace(name, day_.config.rates, found.bytes,
                                      own.day_bytes > 0 ? own.day_bytes : day_.config.day_bytes,
                                      day_.metrics.firm(day_.config.venue, name))
                         .first->second;
        firm.cancel_on_disconnect = own.cancel_on_disconnect;
        firm.entries = found.entries;
        firm.numbers = found.numbers;
        firm.epoch = found.epoch;
        firm.given = found.given;
        firm.given_hash = day_.spool.hash_of_given(name, found.given);
        if (firm.numbers.last_kept > 0) {
            firm.rejects_from = 1;
        }
    }
}

FirmSessions::Firm &FirmSessions::firm_of(const std::string &name) {
    const auto found = firms_.find(name);
    if (found == firms_.end()) {
        throw std::runtime_error(fmt::format("there is no firm {}", name));
    }
    return found->second;
}

std::vector<SessionStart> FirmSessions::starts() {
    std::vector<SessionStart> starts;
    for (const auto &[name, firm] : firms_) {
        starts.push_back(start_of(name, firm));
    }
    return starts;
}

SessionStart FirmSessions::start_of(const std::string &name, const Firm &firm) {
    SessionStart start;
    start.firm = name;
    start.venue = day_.config.venue;
    start.date = day_.clock.date();
    start.host = this;
    start.numbers = firm.numbers;
    return start;
}

// What the log has of a connection's end comes behind the cancel: a start that is killed in between
// is followed by one that cancels again.
void FirmSessions::end_lost(const std::vector<ConnectionEvent> &connections) {
    for (const ConnectionEvent &logon : connections) {
        const auto left = firms_.find(logon.firm.value_or(""));
        if (left != firms_.end()) {
            cancel_all_of(left->first, left->second);
        }
        rows_.put_end(logon, "its gateway was gone");
    }
}

std::vector<std::string>
FirmSessions::renew(const std::map<std::string, Credentials> &credentials) {
    std::vector<std::string> gone = authenticator_.renew(credentials);
    for (auto &[name, firm] : firms_) {
        const auto own = credentials.find(name);
        if (own == credentials.end()) {
            // Whoever cancels for it stays: its session ends.
            continue;
        }
        const std::uint64_t most = own->second.day_bytes;
        firm.limits.configure_bytes(most > 0 ? most : day_.config.day_bytes);
        firm.told_of_bytes = firm.told_of_spare = false;
        if (is_elsewhere(firm, own->second) && std::ranges::count(gone, name) == 0) {
            gone.push_back(name);
        }
        const std::lock_guard lock(firm.mutex);
        firm.cancel_on_disconnect = own->second.cancel_on_disconnect;
    }
    return gone;
}

// Whether it is logged on from where it may not come from any more.
bool FirmSessions::is_elsewhere(Firm &firm, const Credentials &own) {
    const std::lock_guard lock(firm.seen_mutex);
    const std::string host = firm.address.substr(0, firm.address.rfind(':'));
    return !host.empty() && !may_come_from(own, host);
}

void FirmSessions::set_limit(const LimitSet &set) {
    const auto found = firms_.find(set.firm);
    if (found != firms_.end()) {
        found->second.limits.set(set.key, set.value);
        found->second.told_of_bytes = found->second.told_of_spare = false;
    }
}

std::vector<FirmSessions::Facts> FirmSessions::facts() {
    std::vector<Facts> all;
    for (auto &[name, firm] : firms_) {
        Facts facts;
        facts.firm = name;
        facts.bytes = firm.limits.bytes.used();
        facts.bytes_limit = firm.limits.bytes.limit();
        facts.set = firm.limits.all_set();
        facts.limits = firm.limits.all();
        facts.entries = firm.entries;
        facts.is_suspended = firm.is_suspended();
        facts.lacks_report = authenticator_.lacks_report(name);
        const std::lock_guard lock(firm.seen_mutex);
        facts.since = firm.since;
        facts.address = firm.address;
        all.push_back(std::move(facts));
    }
    return all;
}

bool FirmSessions::are_between_messages() {
    return std::all_of(firms_.begin(), firms_.end(), [](auto &each) {
        return std::unique_lock(each.second.mutex, std::try_to_lock).owns_lock();
    });
}

void FirmSessions::finish_messages() {
    for (auto &[name, firm] : firms_) {
        const std::lock_guard lock(firm.mutex);
    }
}

void FirmSessions::cancel_all_of(const std::string &name, Firm &firm) {
    const std::lock_guard lock(firm.mutex);
    if (firm.cancel_on_disconnect.empty()) {
        return;
    }
    const std::string moment = fmt::format("{}-{}", day_.clock.date(), text_of(day_.clock.now()));
    const std::string frame =
        cancel_of_all({name, firm.cancel_on_disconnect, firm.entries + 1, moment});
    log_.append_message(name, std::nullopt, frame);
    count_said(name, firm, {frame});
    day_.events->info("cancel of all firm={} trader={}{}", name, firm.cancel_on_disconnect,
                      day_.of_venue());
}

void FirmSessions::announce_suspension(const std::string &name) {
    ++firm_of(name).suspensions;
}

// Of those that were announced, one is committed; none was where the log has it from before.
void FirmSessions::set_suspended(const std::string &name, bool is_suspended) {
    const auto found = firms_.find(name);
    if (found == firms_.end()) {
        return;
    }
    Firm &firm = found->second;
    firm.was_suspended = is_suspended;
    if (is_suspended && firm.suspensions > 0) {
        --firm.suspensions;
    }
}

std::unique_lock<std::mutex> FirmSessions::hold(const std::string &name) {
    return std::unique_lock(firm_of(name).mutex);
}

bool FirmSessions::is_cancel_of_all(const FirmEnd &end) const {
    return end.trader.empty() && firm_row(day_.config.configuration, end.firm).is_dealer;
}

// In the name of the trader, or of the firm's first one. The firm's lock is held.
std::vector<std::string> FirmSessions::ends_of(const FirmEnd &end, const Firm &firm) {
    const FirmRow row = firm_row(day_.config.configuration, end.firm);
    const std::string moment = fmt::format("{}-{}", day_.clock.date(), text_of(day_.clock.now()));
    Author author{end.firm, row.traders.at(0), firm.entries + 1, moment};
    if (!end.trader.empty()) {
        author.trader = end.trader;
        return cancels_of(end, author);
    }
    if (row.is_dealer) {
        return {cancel_of_all(author)};
    }
    std::vector<std::string> passes;
    for (const OpenRequests::Open &open : day_.open_requests.all()) {
        if (open.firm == end.firm) {
            passes.push_back(pass_of(author, open.request));
            ++author.number;
        }
    }
    return passes;
}

std::vector<std::string> FirmSessions::cancels_of(const FirmEnd &end, Author author) {
    std::vector<std::string> cancels;
    for (const LiveQuotes::Live &live : day_.live_quotes.of(end.firm)) {
        if (live.trader == end.trader) {
            cancels.push_back(cancel_of(author, live.quote));
            ++author.number;
        }
    }
    return cancels;
}

Log::Ticket FirmSessions::put_act_with_end(const FirmEnd &end, const std::string &act) {
    Firm &firm = firm_of(end.firm);
    const std::vector<std::string> frames = ends_of(end, firm);
    const Log::Ticket ticket = log_.append_act(act, end.firm, frames);
    count_said(end.firm, firm, frames);
    return ticket;
}

// Of connections.

Refusal FirmSessions::judge(const LogonFacts &facts) {
    const Refusal refusal = authenticator_.judge(facts);
    if (refusal == Refusal::wrong_password) {
        day_.metrics.wrong_password(facts.firm);
        tell_of_guesses(facts);
    }
    return refusal;
}

// Each time that there are ten times as many.
void FirmSessions::tell_of_guesses(const LogonFacts &facts) {
    const std::size_t count = authenticator_.wrong_of(facts.address);
    std::size_t told = 10;
    while (told < count) {
        told *= 10;
    }
    if (told == count) {
        day_.events->warn("wrong passwords{} address={} count={} firm={}", day_.of_venue(),
                          facts.address, count, facts.firm);
    }
}

FirmSessions::Time FirmSessions::judges_from(const std::string &address) {
    return authenticator_.judges_from(address);
}

std::uint32_t FirmSessions::logon_accepted(const std::string &name, const ConnectionFacts &facts) {
    Firm &firm = firm_of(name);
    const std::lock_guard lock(firm.mutex);
    if (firm.connection) {
        rows_.put_end(*firm.connection, "another one began");
        firm.connection.reset();
    }
    firm.connection = rows_.put_logon(name, facts);
    firm.last_receipt = {};
    firm.see(text_of(day_.clock.exact_now()), facts.address);
    return *firm.connection->number;
}

void FirmSessions::logon_refused(const std::string &firm, const ConnectionFacts &facts,
                                 const std::string &why) {
    day_.told.logon_refused(firm, facts, why);
    rows_.put_refused(firm, facts, why);
}

void FirmSessions::may_have_lost_store(const std::string &name, const NumberClimb &climb) {
    day_.told.may_have_lost_store(name, climb);
    firm_of(name).metrics.may_have_lost_store(climb);
}

void FirmSessions::connection_ended(const std::string &name, std::uint32_t connection,
                                    const std::string &why) {
    Firm &firm = firm_of(name);
    const std::lock_guard lock(firm.mutex);
    if (firm.connection && firm.connection->number == connection) {
        rows_.put_end(*firm.connection, why);
        firm.connection.reset();
        firm.see("", "");
    }
}

// Of sessions.

void FirmSessions::logged_on(const std::string &name) {
    day_.metrics.logged_on();
    Firm &firm = firm_of(name);
    firm.metrics.logged_on(true);
    const std::lock_guard lock(firm.mutex);
    const std::string words = firm.connection ? " " + words_of(*firm.connection) : "";
    day_.events->info("logged on firm={}{}{}", name, day_.of_venue(), words);
}

void FirmSessions::logged_off(const std::string &firm) {
    day_.metrics.logged_off();
    firm_of(firm).metrics.logged_on(false);
    day_.events->info("logged off firm={}{}", firm, day_.of_venue());
    try {
        cancel_all_of(firm, firm_of(firm));
    } catch (const std::exception &) {
        // The log has told it; the cancel follows at the next start.
    }
}

void FirmSessions::count_waiting(const Engine &engine) {
    for (auto &[name, firm] : firms_) {
        firm.metrics.suspended(firm.is_suspended());
        firm.metrics.waits(engine.waiting_bytes(session_name(day_.config.venue, name)));
    }
}

FirmSessions::Time FirmSessions::was_read(const std::string &firm, std::size_t messages,
                                          std::size_t bytes) {
    return firm_of(firm).limits.rate.came(messages, bytes);
}

FirmSessions::Time FirmSessions::was_sent_again(const std::string &firm, std::size_t messages) {
    return firm_of(firm).limits.rate.sent_again(messages);
}

} // namespace gateway
