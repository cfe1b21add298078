// The operator's command `end-day`.
#include "operator/admin_command.h"

#include <fmt/format.h>

namespace gateway {

namespace {

// The requests that are open now, of a venue.
void put_open(const VenueDay &day, AdminAnswer &answer) {
    for (const OpenRequests::Open &open : day.open_requests.all()) {
        answer.rows.push_back({{"venue", day.config.venue},
                               {"firm", open.firm},
                               {"request", open.request},
                               {"accepted", open.accepted}});
    }
}

std::string said(bool is_now, std::size_t open) {
    if (is_now) {
        return open == 0
                   ? "the day ends now; no request is open"
                   : fmt::format("the day ends now; {} open requests end without a notice", open);
    }
    return open == 0 ? "no new request is taken; none is open, so the day ends now"
                     : fmt::format("no new request is taken; the day ends once these {} have ended",
                                   open);
}

} // namespace

AdminAnswer run_end_day(AdminCall &call) {
    check_words(call, 0, 1);
    const bool is_now = !call.words.empty();
    if (is_now && call.words[0] != "--now") {
        throw WrongWords();
    }
    AdminAnswer answer;
    OpenDay day(call.scene);
    for (Leader *leader : day.leaders()) {
        OpenDay::commit(*leader, call.act(is_now ? "end-day --now" : "end-day"));
        put_open(leader->day(), answer);
    }
    answer.said = said(is_now, answer.rows.size());
    return answer;
}

} // namespace gateway
