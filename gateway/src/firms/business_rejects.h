// Which messages the gateway refuses itself: types that the venue does not have, and at times any
// message that begins something.
#ifndef GATEWAY_FIRMS_BUSINESS_REJECTS_H
#define GATEWAY_FIRMS_BUSINESS_REJECTS_H

#include "venue/venue_day.h"

#include <chrono>
#include <cstdint>
#include <optional>
#include <string>
#include <string_view>

namespace gateway {

// A request (R), a quote (S) or a hit (AJ with 694=1). What takes something back or ends it (a
// cancel, a decline, a pass) is none.
struct Business {
    enum class Kind { request, quote, hit };
    Kind kind = Kind::request;
    std::string_view frame; // as the venue is given it
};
std::optional<Business> business_in(std::string_view frame);
bool is_hit(std::string_view frame);
// The firm's own name of what a message is or is about: 117, 131 or 693. Empty where it has none.
std::string_view name_in(std::string_view frame);

// Who sends it, when it was received, and how that firm stands.
struct Sender {
    const std::string &firm;
    std::chrono::system_clock::time_point received;
    bool are_bytes_used_up = false; // of its day
    bool is_suspended = false;
};

// Why it is not taken: BusinessRejectReason (380) and Text (58).
struct NotTaken {
    std::uint32_t reason = 0;
    std::string text;
};
// The type (MsgType, 35) is one of FIX 5.0 SP2, or of its users (U..), that no firm may send. What
// is no type of FIX is the venue's to reject, and so is one that firms of the other side may send.
// So is a firm's BusinessMessageReject (35=j): answered by another, it might come again, without
// end.
bool is_unsupported(std::string_view type);
NotTaken not_supported();
// Of what ends something, where the firm's rate at its limit is used up.
NotTaken too_much_is_taken_back();

// Nothing where it is. A hit is stopped by a halt alone: the request that it ends is open already.
std::optional<NotTaken> why_not_taken(const VenueDay &day, const Sender &sender,
                                      const Business &business);

} // namespace gateway

#endif
