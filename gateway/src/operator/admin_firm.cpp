// The operator's command `firm`.
#include "operator/admin_command.h"

#include <fmt/format.h>

namespace gateway {

namespace {

AdminAnswer::Row row_of(const std::string &venue, const char *what, AdminAnswer::Value value,
                        AdminAnswer::Value limit = std::string()) {
    return {{"what", std::string(what)},
            {"venue", venue},
            {"value", std::move(value)},
            {"limit", std::move(limit)}};
}

std::uint64_t whole(double count) {
    return static_cast<std::uint64_t>(count);
}

void add_counts(const std::string &venue, const FirmMetrics::Counts &counts, AdminAnswer &answer) {
    answer.rows.push_back(row_of(venue, "requests", whole(counts.requests)));
    answer.rows.push_back(row_of(venue, "quotes", whole(counts.quotes)));
    answer.rows.push_back(row_of(venue, "hits", whole(counts.hits)));
    answer.rows.push_back(row_of(venue, "refusals", whole(counts.refusals)));
    answer.rows.push_back(row_of(venue, "waiting_bytes", whole(counts.waiting_bytes)));
}

// What a rate allows has no count that stands still: its limit is told alone.
void add_limits(const std::string &venue, const FirmSessions::Facts &firm, AdminAnswer &answer) {
    for (const auto &[name, most] : firm.limits) {
        const bool is_counted = name == "day_bytes";
        answer.rows.push_back(row_of(
            venue, name.c_str(),
            is_counted ? AdminAnswer::Value(firm.bytes) : AdminAnswer::Value(std::string()), most));
    }
}

void add(Leader &leader, const std::string &name, AdminAnswer &answer) {
    const VenueDay &day = leader.day();
    const std::string &venue = day.config.venue;
    for (const FirmSessions::Facts &firm : leader.sessions().facts()) {
        if (firm.firm != name) {
            continue;
        }
        answer.rows.push_back(row_of(venue, "logged_on", firm.since));
        answer.rows.push_back(row_of(venue, "address", firm.address));
        answer.rows.push_back(row_of(venue, "suspended", firm.is_suspended));
        answer.rows.push_back(row_of(venue, "uncertified", firm.lacks_report));
        answer.rows.push_back(row_of(venue, "messages", std::uint64_t{firm.entries}));
        add_counts(venue, day.metrics.firm(venue, name).counts(), answer);
        add_limits(venue, firm, answer);
    }
}

} // namespace

AdminAnswer run_firm(AdminCall &call) {
    check_words(call, 1, 1);
    OpenDay day(call.scene);
    AdminAnswer answer;
    for (Leader *leader : day.leaders_of(call.words[0])) {
        add(*leader, call.words[0], answer);
    }
    return answer;
}

} // namespace gateway
