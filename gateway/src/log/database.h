// The log's database, of SQLite or of PostgreSQL. schema.sql has its tables.
#ifndef GATEWAY_LOG_DATABASE_H
#define GATEWAY_LOG_DATABASE_H

#include "log/records.h"

#include <memory>
#include <stdexcept>
#include <vector>

#include <fmt/format.h>

namespace gateway {

// Rows that are put into the log by one transaction. Those of `sent` are a copy for readers: no
// gateway reads them.
struct Batch {
    std::vector<ConnectionEvent> connections;
    std::vector<Entry> entries;
    std::vector<Sent> sent;
    bool is_repeated = false;       // the gateway before may have put some of these there
    std::vector<std::string> notes; // lines of session notes, in order
    std::optional<Seal> seal;       // of what connections, entries and notes end with
    std::vector<Checkpoint> checkpoints;

    bool empty() const {
        return connections.empty() && entries.empty() && sent.empty() && notes.empty() &&
               checkpoints.empty();
    }
};

// The form of the tables that this gateway reads and writes (schema.sql).
constexpr std::uint32_t form_of_log = 6;

// Why a log whose tables are of another form is not gone on with.
inline std::string another_form(const std::string &log, std::uint32_t form) {
    return fmt::format("{} has tables of form {}, and this gateway's are of form {}: no day spans "
                       "two forms, so it ends with the version of the gateway that began it",
                       log, form, form_of_log);
}

// How far the log is for connections.
struct ConnectionState {
    std::optional<ConnectionEvent> last;
    std::uint32_t greatest = 0;        // number that a connection has
    std::vector<ConnectionEvent> open; // the Logons of connections that have no end
};

// Reads through a connection of its own; one thread at a time. Every call throws
// std::runtime_error, or what is derived of it, with the database's words.
//
// What one call says another need not say: an index of a file of SQLite may have other rows than
// its table, and a server may answer each query as it likes. No start believes it all the same.
// Each entry that the venue is fed is held against the one before it as it is read, and so is each
// row of `connection`; the last of both has to have the hash that a seal covers. That seal is made
// with the gateways' secret, whichever query its hashes came from. Session notes stand in the row
// of their seal.
class LogReader {
  public:
    virtual ~LogReader() = default;

    // The entries from a place on, `limit` at most, in order.
    virtual std::vector<Entry> entries(std::uint32_t from, std::uint32_t limit) = 0;
    // The last entry, if there is one.
    virtual std::optional<Entry> last_entry() = 0;
    // The rows of `connection` from a place on, `limit` at most, in order.
    virtual std::vector<ConnectionEvent> connection_events(std::uint32_t from,
                                                           std::uint32_t limit) = 0;
    // The last of them, if there is one.
    virtual std::optional<ConnectionEvent> last_connection() = 0;
    // The seals from a number on, `limit` at most, in order, with the hashes that stand now in the
    // rows that they name.
    virtual std::vector<Seal> seals(std::uint32_t from, std::uint32_t limit) = 0;
    virtual std::uint32_t count_checkpoints() = 0;
    // The last checkpoint, likewise, if there is one.
    virtual std::optional<Checkpoint> last_checkpoint() = 0;
    // The checkpoint of this number, likewise, if there is one.
    virtual std::optional<Checkpoint> checkpoint(std::uint32_t number) = 0;
};

// How far a log is for connections, by all rows of `connection`. Throws std::runtime_error where
// one of them does not follow on the one before it.
ConnectionState connections_in(LogReader &log);

// Writes through a connection of its own; one thread at a time.
class LogWriter {
  public:
    virtual ~LogWriter() = default;

    // Puts all rows there and returns when they are safe on disk. Throws as the reader does; the
    // rows may then be there or not, and nothing more is written. Throws too where the term of this
    // gateway is over: then none of them is there.
    virtual void commit(const Batch &batch) = 0;
    // Puts rows of the copy for readers there, which a cut of power may take away again, but no row
    // without those behind it: a start puts them there again.
    virtual void commit_copies(const Batch &batch) { commit(batch); }
    // Says that this gateway is there. To be called each second; a commit says it too.
    virtual void be_seen() = 0;

    // Nothing waits: time for what need not be done at a commit.
    virtual void rest() {}
};

// The database is away, or another is the one that is written to: what was asked may be asked again
// of a new connection.
class DatabaseAway : public std::runtime_error {
  public:
    using std::runtime_error::runtime_error;
};

// A database with the tables.
class Database {
  public:
    virtual ~Database() = default;

    virtual std::unique_ptr<LogReader> reader() = 0;

    // The term in which this process may write from now on; nothing while another gateway does.
    // From then on until this is destroyed, or another gateway takes over, nobody else writes.
    virtual std::optional<std::uint32_t> take_over() = 0;
    // Once it may write.
    virtual std::unique_ptr<LogWriter> writer() = 0;
};

// Opens the file, or makes it. Throws where another gateway has it.
std::unique_ptr<Database> open_sqlite(const std::string &path);

// Where a log is in PostgreSQL, and as whom it is written.
struct PostgresPlace {
    std::string connection;
    std::string schema;
    std::string gateway;
    std::string synchronous_commit = "on";
};

// A schema of a PostgreSQL database, which is made where there is none.
std::unique_ptr<Database> open_postgres(PostgresPlace place);

// The columns of tables, in the order in which they are read and written, and a SELECT of them
// with what stands behind FROM and the table.
constexpr std::string_view entry_columns =
    "place, term, moment, received, firm, number, connection, line, before, hash";
constexpr std::string_view connection_columns =
    "place, term, moment, event, entry, number, firm, address, certificate, why, left_out, before, "
    "hash";
constexpr std::string_view sent_columns = "firm, number, place, bytes, told";
inline std::string select_entry(std::string_view rest) {
    return fmt::format("SELECT {} FROM entry {}", entry_columns, rest);
}
inline std::string select_connection(std::string_view rest) {
    return fmt::format("SELECT {} FROM connection {}", connection_columns, rest);
}

// Of the table `seal`: a row's position, with the hashes of the rows that it names, its mac and its
// session notes.
inline std::string select_seal(std::string_view rest) {
    return fmt::format("SELECT seal.term, seal.place, entry.hash, seal.event, connection.hash, "
                       "seal.number, seal.hash, seal.mac, seal.notes FROM seal LEFT JOIN entry ON "
                       "entry.place = seal.place LEFT JOIN connection ON connection.place = "
                       "seal.event {}",
                       rest);
}

// Of the table `checkpoint`: a row's position likewise, its number, whether it is the end, its
// signature, and that of the one before, which is `nothing` where there is none.
inline std::string select_checkpoint(std::string_view nothing, std::string_view rest) {
    return fmt::format(
        "SELECT checkpoint.term, checkpoint.place, entry.hash, checkpoint.event, connection.hash, "
        "checkpoint.seal, seal.hash, checkpoint.number, checkpoint.is_end, checkpoint.signature, "
        "coalesce((SELECT earlier.signature FROM checkpoint AS earlier WHERE earlier.number = "
        "checkpoint.number - 1), {}) FROM checkpoint LEFT JOIN entry ON entry.place = "
        "checkpoint.place LEFT JOIN connection ON connection.place = checkpoint.event LEFT JOIN "
        "seal ON seal.number = checkpoint.seal {}",
        nothing, rest);
}

// The texts of schema.sql and of terms.sql.
const char *schema_text();
const char *terms_text();

} // namespace gateway

#endif
