#include "firms/connection_rows.h"

#include "base/printable.h"
#include "session/refusal_words.h"

#include <exception>
#include <utility>

#include <fmt/format.h>

namespace gateway {

namespace {

// Of a text in a row that is somebody else's.
constexpr std::size_t longest_text = 200;

ConnectionEvent event_of(const char *event, const ConnectionFacts &facts) {
    ConnectionEvent row;
    row.event = event;
    row.address = facts.address;
    if (!facts.certificate.empty()) {
        row.certificate = printable(facts.certificate, longest_text);
    }
    return row;
}

} // namespace

std::string words_of(const ConnectionEvent &logon) {
    std::string words = fmt::format("connection={} address={}", *logon.number, logon.address);
    if (logon.certificate) {
        words += fmt::format(" certificate=\"{}\"", *logon.certificate);
    }
    return words;
}

ConnectionEvent ConnectionRows::put_logon(const std::string &firm, const ConnectionFacts &facts) {
    ConnectionEvent row = event_of(connection_events::logon, facts);
    row.firm = firm;
    row.number = log_.put_connection(row);
    return row;
}

// Where it is not put, the end follows at the next start.
void ConnectionRows::put_end(const ConnectionEvent &logon, const std::string &why) {
    ConnectionEvent end = logon;
    end.event = connection_events::end;
    end.why = printable(why, longest_text);
    day_.events->info("connection ended firm={}{} {} why=\"{}\"", logon.firm.value_or(""),
                      day_.of_venue(), words_of(logon), *end.why);
    put_if_taken(std::move(end));
}

void ConnectionRows::put_refused(const std::string &firm, const ConnectionFacts &facts,
                                 const std::string &why) {
    ConnectionEvent row = event_of(connection_events::refused, facts);
    row.firm = firm;
    row.why = why;
    if (why == refusal_words::lost_store) {
        put_if_taken(std::move(row));
    } else {
        put_limited(std::move(row));
    }
}

void ConnectionRows::put_stranger(const ConnectionFacts &facts, const std::string &why) {
    ConnectionEvent row = event_of(connection_events::stranger, facts);
    row.why = why;
    put_limited(std::move(row));
}

void ConnectionRows::put_limited(ConnectionEvent row) {
    const Limiter::Answer answer = rows_.ask(*row.why);
    if (answer.told) {
        row.left_out = answer.left_out;
        put_if_taken(std::move(row));
    }
}

void ConnectionRows::put_rest() {
    put(rows_.rest());
}

void ConnectionRows::put_last_rest() {
    put(rows_.last_rest());
}

void ConnectionRows::put(const std::vector<Limiter::Rest> &rest) {
    for (const Limiter::Rest &kind : rest) {
        ConnectionEvent row;
        row.event = connection_events::left_out;
        row.why = kind.kind;
        row.left_out = kind.left_out;
        put_if_taken(std::move(row));
    }
}

void ConnectionRows::put_if_taken(ConnectionEvent row) {
    try {
        log_.put_connection(std::move(row));
    } catch (const std::exception &) {
        // The log has told it.
    }
}

} // namespace gateway
