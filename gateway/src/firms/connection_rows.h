// Writes into the log what happened to connections: Logons, ends, and refusals.
#ifndef GATEWAY_FIRMS_CONNECTION_ROWS_H
#define GATEWAY_FIRMS_CONNECTION_ROWS_H

#include "base/limiter.h"
#include "log/log.h"
#include "session/connection_facts.h"
#include "venue/venue_day.h"

#include <string>
#include <vector>

namespace gateway {

// Where the log takes nothing any more, it has told that, and only a Logon's row throws.
class ConnectionRows {
  public:
    ConnectionRows(VenueDay &day, Log &log) : day_(day), log_(log) {}

    // A Logon that was accepted: its row, with the number that the connection has from now on.
    ConnectionEvent put_logon(const std::string &firm, const ConnectionFacts &facts);
    // The end of that connection, which the operator is told too.
    void put_end(const ConnectionEvent &logon, const std::string &why);
    // A Logon in a firm's name that was refused, and a stranger: as often as their rows may be.
    // Whoever connects may have these called. The Logon of an engine that has lost its store has a
    // row always: a start goes by it, and an operator has to act before the firm's next one.
    void put_refused(const std::string &firm, const ConnectionFacts &facts, const std::string &why);
    void put_stranger(const ConnectionFacts &facts, const std::string &why);
    // How many rows were left out of which none came for a while; to be called each second.
    void put_rest();
    // The same of all, at the end.
    void put_last_rest();

  private:
    void put_limited(ConnectionEvent row);
    void put(const std::vector<Limiter::Rest> &rest);
    void put_if_taken(ConnectionEvent row);

    VenueDay &day_;
    Log &log_;
    Limiter rows_;
};

// For the operator: which connection a Logon's row is of.
std::string words_of(const ConnectionEvent &logon);

} // namespace gateway

#endif
