#include "firms/business_rejects.h"

#include "common/frame.h"
#include "common/moment.h"

#include <algorithm>
#include <array>

#include <fmt/chrono.h>
#include <fmt/format.h>

namespace gateway {

namespace {

// BusinessRejectReason (380).
constexpr std::uint32_t other_reason = 0;
constexpr std::uint32_t unsupported_message_type = 3;
constexpr std::uint32_t application_not_available = 4;

// What a firm may send, dealers and investors together, and a BusinessMessageReject.
constexpr std::array<std::string_view, 6> left_to_the_venue = {"S", "Z", "AG", "R", "AJ", "j"};
// The types of one letter of FIX 5.0 SP2 that are no session's own.
constexpr std::string_view types_of_one_letter =
    "6789BCDEFGHJKLMNPQRSTVWXYZabcdefghijklmnopqrstuvwxyz";

constexpr const char *type_is_not_supported =
    "the venue takes no messages of this type (MsgType, 35)";
constexpr const char *firm_is_suspended =
    "the operator has suspended this firm: no request, quote or hit of it is taken";
constexpr const char *venue_is_halted =
    "the venue is halted: until the operator lets it go on, no request, quote or hit is taken; "
    "cancels, declines and passes are";
constexpr const char *bond_is_halted =
    "this bond is halted: until the operator lets it go on, no request, quote or hit of it is "
    "taken; cancels, declines and passes are";
constexpr const char *operator_ends_day =
    "the operator ends the day: no new request is taken, and those that are open go on to their "
    "deadlines";
constexpr const char *day_has_ended = "the operator has ended the day: nothing is traded any more";
constexpr const char *bytes_are_used_up =
    "this firm has sent all the bytes that it may send in a day: until the operator raises that, "
    "no request and no quote is taken; cancels, declines, hits and passes are";
constexpr const char *spare_is_used_up =
    "this is more than a firm may take back at once when its bytes of the day are used up, or the "
    "disk of the venue's log is nearly full: wait some seconds, and send it again";
constexpr const char *disk_is_nearly_full =
    "the disk of the venue's log is nearly full: until the operator makes room, no request and no "
    "quote is taken; cancels, declines, hits and passes are";
constexpr const char *clock_was_set =
    "the clock of the venue was set: until the operator says that it is right, no request and no "
    "quote is taken; cancels, declines, hits and passes are";

NotTaken not_available(std::string text) {
    return {application_not_available, std::move(text)};
}

// YYYYMMDD-HH:MM:SS, in UTC.
std::string text_of(SystemSeconds moment) {
    return fmt::format("{:%Y%m%d-%H:%M:%S}", fmt::gmtime(moment.time_since_epoch().count()));
}

std::string bond_of(const VenueDay &day, const std::string &firm, const Business &business) {
    return business.kind == Business::Kind::hit
               ? day.shown_quotes.bond_of(firm, value_in(business.frame, "117"))
               : std::string(value_in(business.frame, "48"));
}

// Of a deadline (126) of this date: HH:MM:SS, or with milliseconds. Nothing where it is no moment.
std::optional<Moment> moment_on(const std::string &date, std::string_view deadline) {
    if (!deadline.starts_with(date + "-")) {
        return std::nullopt;
    }
    constexpr std::size_t without_milliseconds = 8;
    const std::string time(deadline.substr(date.size() + 1));
    return moment_of(time.size() == without_milliseconds ? time + ".000" : time);
}

// Whether a deadline (126) of this day lies behind the day's end. What is no moment of the day is
// the venue's to reject.
bool is_behind_end(std::string_view deadline, const TradingDay &day) {
    const auto moment = moment_on(day.date, deadline);
    return moment && day.date + "-" + text_of(*moment) > text_of(day.ends) + ".000";
}

bool is_between(char letter, char first, char last) {
    return first <= letter && letter <= last;
}

// AA to BZ, and CA to CG.
bool is_type_of_two_letters(std::string_view type) {
    return is_between(type[0], 'A', 'B') ? is_between(type[1], 'A', 'Z')
                                         : type[0] == 'C' && is_between(type[1], 'A', 'G');
}

bool is_type_of_fix(std::string_view type) {
    if (type.starts_with('U')) {
        return true;
    }
    if (type.size() == 1) {
        return types_of_one_letter.find(type[0]) != std::string_view::npos;
    }
    return type.size() == 2 && is_type_of_two_letters(type);
}

// A request whose notice would come when the day has ended, or that comes when it closes.
std::optional<NotTaken> why_no_request(const VenueDay &day, const Sender &sender,
                                       const Business &business) {
    if (day.ordered_end.announced() != DayEnd::as_configured) {
        return not_available(operator_ends_day);
    }
    if (!day.hours) {
        return std::nullopt;
    }
    if (sender.received >= day.hours->closes) {
        return not_available(fmt::format("the venue has closed for new requests, at {} UTC: those "
                                         "that are open go on to their deadlines",
                                         text_of(day.hours->closes)));
    }
    if (is_behind_end(value_in(business.frame, "126"), *day.hours)) {
        return NotTaken{other_reason,
                        fmt::format("the day ends at {} UTC, and this deadline (ExpireTime, 126) "
                                    "is behind that: give one that is not",
                                    text_of(day.hours->ends))};
    }
    return std::nullopt;
}

} // namespace

// A number may have leading zeros, for the venue too.
bool is_hit(std::string_view frame) {
    return value_in(frame, "35") == "AJ" && number_of(value_in(frame, "694")) == 1U;
}

bool is_unsupported(std::string_view type) {
    return is_type_of_fix(type) && std::find(left_to_the_venue.begin(), left_to_the_venue.end(),
                                             type) == left_to_the_venue.end();
}

NotTaken not_supported() {
    return {unsupported_message_type, type_is_not_supported};
}

NotTaken too_much_is_taken_back() {
    return {other_reason, spare_is_used_up};
}

std::string_view name_in(std::string_view frame) {
    const std::string_view type = value_in(frame, "35");
    if (type == "S" || type == "Z") {
        return value_in(frame, "117");
    }
    if (type == "R" || type == "AG") {
        return value_in(frame, "131");
    }
    return type == "AJ" ? value_in(frame, "693") : std::string_view();
}

std::optional<Business> business_in(std::string_view frame) {
    const std::string_view type = value_in(frame, "35");
    if (type == "R") {
        return Business{Business::Kind::request, frame};
    }
    if (type == "S") {
        return Business{Business::Kind::quote, frame};
    }
    if (is_hit(frame)) {
        return Business{Business::Kind::hit, frame};
    }
    return std::nullopt;
}

std::optional<NotTaken> why_not_taken(const VenueDay &day, const Sender &sender,
                                      const Business &business) {
    if (sender.is_suspended) {
        return not_available(firm_is_suspended);
    }
    if (day.halts.is_venue_halted()) {
        return not_available(venue_is_halted);
    }
    if (day.halts.has(bond_of(day, sender.firm, business))) {
        return not_available(bond_is_halted);
    }
    if (business.kind == Business::Kind::hit && day.ordered_end.announced() == DayEnd::now) {
        return not_available(day_has_ended);
    }
    if (business.kind == Business::Kind::hit) {
        return std::nullopt;
    }
    if (business.kind == Business::Kind::request) {
        if (auto why = why_no_request(day, sender, business)) {
            return why;
        }
    }
    if (sender.are_bytes_used_up) {
        return NotTaken{other_reason, bytes_are_used_up};
    }
    if (day.reserve.is_reached()) {
        return not_available(disk_is_nearly_full);
    }
    return day.clock_is_right ? std::nullopt : std::optional(not_available(clock_was_set));
}

} // namespace gateway
