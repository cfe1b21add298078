// The operator's command `status`.
#include "config/log_location.h"
#include "log/checkpoint_file.h"
#include "operator/admin_command.h"

#include <exception>

namespace gateway {

namespace {

std::size_t logged_on_at(Leader &leader) {
    std::size_t count = 0;
    for (const FirmSessions::Facts &firm : leader.sessions().facts()) {
        count += firm.since.empty() ? 0 : 1;
    }
    return count;
}

// The names of the firms that need an admitted report and have none, with spaces between.
std::string uncertified_at(Leader &leader) {
    std::string names;
    for (const FirmSessions::Facts &firm : leader.sessions().facts()) {
        if (firm.lacks_report) {
            names += (names.empty() ? "" : " ") + firm.firm;
        }
    }
    return names;
}

// The entry up to which the log is signed outside of its database; nothing is signed where 0.
std::uint64_t signed_at(const VenueDay &day) {
    const Config &config = day.config;
    try {
        const auto kept = CheckpointFile(config.checkpoints, sealer_of(config)).read();
        return kept ? kept->at.place : 0;
    } catch (const std::exception &) {
        return 0;
    }
}

AdminAnswer::Row row_of(Leader &leader, const AdminScene::Beside &beside) {
    const VenueDay &day = leader.day();
    const bool is_copied = !day.config.copies.empty();
    const bool is_kept = is_copied && !day.config.sealed.empty();
    using Value = AdminAnswer::Value;
    const auto unsealed = beside.days_without_seal
                              ? Value(*beside.days_without_seal)
                              : Value(std::string("not known: the disk does not answer"));
    const KernelClock clock = read_kernel_clock();
    return {{"state", std::string("open")},
            {"venue", day.config.venue},
            {"date", day.clock.date()},
            {"entries", std::uint64_t{leader.last_place()}},
            {"open_requests", std::uint64_t{day.open_requests.all().size()}},
            {"operator_ends_day", day.ordered_end.is_ordered()},
            {"firms", std::uint64_t{day.config.firms.names.size()}},
            {"logged_on", std::uint64_t{logged_on_at(leader)}},
            {"uncertified", uncertified_at(leader)},
            {"takes_business", day.clock_is_right && !day.reserve.is_reached() &&
                                   !day.halts.is_venue_halted() && !day.ordered_end.is_ordered()},
            {"halted", day.halts.words()},
            {"log_disk_free_bytes", day.reserve.free_bytes().value_or(0)},
            {"log_disk_reserve_bytes", day.reserve.reserve()},
            {"log_disk_reserve_reached", day.reserve.is_reached()},
            {"signed_entry", signed_at(day)},
            {"days_without_copy",
             is_copied ? Value(beside.days_without_copy) : Value(std::string("no [copies]"))},
            {"days_without_seal", is_kept ? unsealed : Value(std::string("no keeper"))},
            {"restart_goes_well", beside.restart_goes_well},
            {"clock_synchronised", clock.is_synchronised},
            {"clock_error_us", static_cast<std::uint64_t>(clock.greatest_error.count())}};
}

} // namespace

AdminAnswer run_status(AdminCall &call) {
    check_words(call, 0, 0);
    AdminAnswer answer;
    const AdminScene::Beside beside = call.scene.beside();
    for (const std::string &sentence : beside.restart) {
        answer.said += (answer.said.empty() ? "" : "\n") + sentence;
    }
    const AdminScene::HeldDay held = call.scene.hold_day();
    if (held.gateway == nullptr) {
        answer.rows.push_back({{"state", std::string("waits")}, {"for", call.scene.waits_for()}});
        return answer;
    }
    const auto open = held.gateway->keep();
    if (!held.gateway->is_open()) {
        answer.rows.push_back({{"state", std::string("not open")},
                               {"for", std::string("it follows another gateway, begins or ends")}});
        return answer;
    }
    for (const auto &leader : held.gateway->leaders()) {
        answer.rows.push_back(row_of(*leader, beside));
    }
    return answer;
}

} // namespace gateway
