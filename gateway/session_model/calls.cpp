// Implements the calls of fix_sessions.h that take a session.
#include "arguments.h"
#include "cutter.h"
#include "events.h"
#include "orders.h"
#include "sending.h"
#include "ticking.h"
#include "writing.h"

#include <utility>

using namespace session_model;

void fix_sessions_new(SessionState *session) {
    *session = SessionState{};
    session->day.expected = 1;
    session->day.next = 2;
    session->day.is_one_free = true;
}

bool fix_sessions_came(SessionState *session, Bytes firm, std::size_t firm_len, Bytes venue,
                       std::size_t venue_len, Bytes desk, std::size_t desk_len, Bytes date,
                       std::size_t date_len, std::uint32_t moment, std::uint64_t connection,
                       Bytes bytes, std::size_t bytes_len, bool is_known, bool is_denied,
                       std::uint64_t reason, Bytes id, std::size_t id_len, Bytes text,
                       std::size_t text_len, std::uint8_t *out, std::size_t out_len, Told *told) {
    return answered([&] {
        const std::optional<Setting> setting =
            setting_of({firm, firm_len, venue, venue_len, desk, desk_len, date, date_len, moment});
        std::optional<Denial> denial;
        if (is_denied) {
            denial = Denial{reason, text_at(id, id_len), text_at(text, text_len)};
        }
        if (!setting || (denial && !is_denial(*denial))) {
            return false;
        }
        const Incoming message = read_incoming(text_at(bytes, bytes_len));
        Turn turn(*session);
        came(turn, {setting->names, setting->clock, message, connection, is_known, denial});
        return tell(*setting, turn, {session, out, out_len, told});
    });
}

bool fix_sessions_given(SessionState *session, Bytes firm, std::size_t firm_len, Bytes venue,
                        std::size_t venue_len, Bytes desk, std::size_t desk_len, Bytes date,
                        std::size_t date_len, std::uint32_t moment, Bytes frame,
                        std::size_t frame_len, std::uint8_t *out, std::size_t out_len, Told *told) {
    return answered([&] {
        const std::optional<Setting> setting =
            setting_of({firm, firm_len, venue, venue_len, desk, desk_len, date, date_len, moment});
        std::optional<Body> body = body_of_frame(text_at(frame, frame_len));
        if (!setting || !body) {
            return false;
        }
        Turn turn(*session);
        give(turn, setting->clock, std::move(*body));
        return tell(*setting, turn, {session, out, out_len, told});
    });
}

bool fix_sessions_hands(SessionState *session, Bytes firm, std::size_t firm_len, Bytes venue,
                        std::size_t venue_len, Bytes desk, std::size_t desk_len, Bytes date,
                        std::size_t date_len, std::uint32_t moment, std::uint64_t next_kept,
                        Bytes frame, std::size_t frame_len, std::uint32_t first, bool is_copy,
                        std::uint8_t *out, std::size_t out_len, Told *told) {
    return answered([&] {
        const std::optional<Setting> setting =
            setting_of({firm, firm_len, venue, venue_len, desk, desk_len, date, date_len, moment});
        if (!setting || first >= session_model::DAY) {
            return false;
        }
        std::optional<Stored> stored;
        if (frame_len > 0) {
            std::optional<Body> body = body_of_frame(text_at(frame, frame_len));
            if (!body) {
                return false;
            }
            stored = Stored{std::move(*body), first, is_copy};
        }
        Turn turn(*session);
        hand(turn, setting->clock, next_kept, std::move(stored));
        return tell(*setting, turn, {session, out, out_len, told});
    });
}

bool fix_sessions_tick(SessionState *session, Bytes firm, std::size_t firm_len, Bytes venue,
                       std::size_t venue_len, Bytes desk, std::size_t desk_len, Bytes date,
                       std::size_t date_len, std::uint32_t moment, std::uint8_t *out,
                       std::size_t out_len, Told *told) {
    return answered([&] {
        const std::optional<Setting> setting =
            setting_of({firm, firm_len, venue, venue_len, desk, desk_len, date, date_len, moment});
        if (!setting) {
            return false;
        }
        Turn turn(*session);
        tick(turn, setting->clock);
        return tell(*setting, turn, {session, out, out_len, told});
    });
}

bool fix_sessions_ordered(SessionState *session, Bytes firm, std::size_t firm_len, Bytes venue,
                          std::size_t venue_len, Bytes desk, std::size_t desk_len, Bytes date,
                          std::size_t date_len, std::uint32_t moment, std::uint32_t kind,
                          std::uint64_t copies, std::uint8_t *out, std::size_t out_len,
                          Told *told) {
    return answered([&] {
        const std::optional<Setting> setting =
            setting_of({firm, firm_len, venue, venue_len, desk, desk_len, date, date_len, moment});
        if (!setting || kind > static_cast<std::uint32_t>(Order::reset)) {
            return false;
        }
        Turn turn(*session);
        obey(turn, setting->clock, static_cast<Order>(kind), copies);
        return tell(*setting, turn, {session, out, out_len, told});
    });
}

bool fix_sessions_log_out(SessionState *session, Bytes firm, std::size_t firm_len, Bytes venue,
                          std::size_t venue_len, Bytes desk, std::size_t desk_len, Bytes date,
                          std::size_t date_len, std::uint32_t moment, Bytes text,
                          std::size_t text_len, std::uint8_t *out, std::size_t out_len,
                          Told *told) {
    return answered([&] {
        const std::optional<Setting> setting =
            setting_of({firm, firm_len, venue, venue_len, desk, desk_len, date, date_len, moment});
        const Text reason = text_at(text, text_len);
        if (!setting || !is_told_text(reason)) {
            return false;
        }
        Turn turn(*session);
        log_out_by_gateway(turn, setting->clock, reason);
        return tell(*setting, turn, {session, out, out_len, told});
    });
}

void fix_sessions_gone(SessionState *session, std::uint64_t connection) {
    gone(*session, connection);
}

void fix_sessions_wants(const SessionState *session, Wanted *wanted) {
    *wanted = wanted_by(*session);
}
