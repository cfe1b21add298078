// Writes the log into a schema of PostgreSQL. A commit returns when the server says that it is
// safe, by its synchronous_commit and its synchronous_standby_names.
#include "log/postgres.h"
#include "log/postgres_form.h"
#include "log/postgres_rows.h"

#include <algorithm>
#include <array>
#include <chrono>
#include <cstring>
#include <mutex>
#include <stdexcept>

namespace gateway {

namespace {

using namespace std::chrono_literals;

// How often a gateway that commits says that it is there.
constexpr auto seen_each = 1s;

// Hears what the server warns of. Where it did not wait for a standby a commit succeeds, and that
// is all that it says: in words of its own language, so that these are not looked at.
class Warnings final : public pqxx::errorhandler {
  public:
    explicit Warnings(pqxx::connection_base &connection) : errorhandler(connection) {}

    // What is said from now on.
    void listen() { heard_.fill('\0'); }

    bool operator()(const char text[]) noexcept override {
        std::strncpy(heard_.data(), text, heard_.size() - 1);
        return true;
    }
    // The last of it, in one line; empty where nothing was said.
    std::string heard() const {
        std::string text(heard_.data());
        std::ranges::replace(text, '\n', ' ');
        text.erase(text.find_last_not_of(' ') + 1);
        return text;
    }

  private:
    std::array<char, 512> heard_{};
};

// The connection on which a gateway writes, in a term that is tied to it.
class WritingConnection {
  public:
    explicit WritingConnection(const PostgresPlace &place)
        : connection_(std::make_unique<pqxx::connection>(place.connection)),
          warnings_(*connection_) {
        begin(place);
        backend_ = connection_->backendpid();
    }

    // Whether the term was raised for this gateway.
    std::optional<std::uint32_t> take_over(const std::string &name) {
        pqxx::work work(*connection_);
        const pqxx::result rows = work.exec_params("SELECT * FROM take_over($1)", name);
        if (rows.empty()) {
            return std::nullopt;
        }
        term_ = number_of(rows[0][0]);
        const auto old_backend = rows[0][1].as<int>();
        const auto old_began = rows[0][2].as<std::string>();
        commit(work);
        end_backend(old_backend, old_began);
        return term_;
    }

    // `first` is a statement in front of the rows, if there is one.
    void commit(const Batch &batch, std::string_view first = {}) {
        if (Statements::has_room_for(batch)) {
            commit_at_once(batch, first);
            return;
        }
        pqxx::work work(*connection_);
        check_connection();
        Statements rest(work);
        if (!first.empty()) {
            work.exec(std::string(first));
        }
        put_rows(work, batch);
        for (const Checkpoint &row : batch.checkpoints) {
            work.exec_prepared("checkpoint", row.number, row.at.term, column_of_place(row.at.place),
                               row.at.event, row.at.seal, static_cast<int>(row.is_end),
                               bytea(row.signature));
        }
        rest.require(batch);
        end_with_words(rest, batch);
        rest.run();
        commit(work);
    }

  private:
    // In one way to the server and back. Another session than that of now, if the connection is
    // lost meanwhile, has no such statements.
    void commit_at_once(const Batch &batch, std::string_view first) {
        pqxx::nontransaction work(*connection_);
        check_connection();
        Statements all(work);
        all.add("BEGIN");
        if (!first.empty()) {
            all.add(first);
        }
        all.put(batch);
        all.require(batch);
        end_with_words(all, batch);
        all.add("COMMIT");
        warnings_.listen();
        try {
            all.run();
        } catch (const pqxx::sql_error &) {
            // Nothing of it is there, and the transaction does not stay open.
            work.exec("ROLLBACK");
            throw;
        }
        heed_warnings();
    }

    // The words that each transaction ends with, with its seal if it has one.
    void end_with_words(Statements &statements, const Batch &batch) {
        const auto now = std::chrono::steady_clock::now();
        if (now - seen_ >= seen_each) {
            statements.add(fmt::format("SELECT speak_and_be_seen({})", term_));
            seen_ = now;
        } else if (!batch.seal) {
            statements.call("speak", term_);
        }
        if (batch.seal) {
            const Seal &seal = *batch.seal;
            statements.call("seal_and_speak", term_, seal.at.seal, seal.at.term,
                            column_of_place(seal.at.place), seal.at.event, bytea(seal.notes),
                            bytea(seal.at.notes), bytea(seal.mac));
        }
    }

    void commit(pqxx::work &work) {
        warnings_.listen();
        work.commit();
        heed_warnings();
    }

    void heed_warnings() const {
        const std::string warning = warnings_.heard();
        if (!warning.empty()) {
            throw std::runtime_error(fmt::format(
                "PostgreSQL: what was committed may be on one machine alone: {}", warning));
        }
    }

    void begin(const PostgresPlace &place) {
        const std::string &schema = place.schema;
        pqxx::nontransaction work(*connection_);
        make_tables(work, schema);
        check_form(work, schema);
        // Behind what another's function may have set, or left in this session's own schema: that
        // by which the tables are made, or one that a view in the place of a table calls.
        work.exec(
            fmt::format("SET synchronous_commit TO {}", work.quote(place.synchronous_commit)));
        work.exec("SET client_min_messages TO warning");
        // Else the server warns of each text with a backslash, as bytes have one.
        work.exec("SET standard_conforming_strings TO on");
        // Else the server says of no table that it is made as gateways make it.
        work.exec("SET quote_all_identifiers TO off");
        work.exec(fmt::format("SET search_path TO {}, pg_temp", work.quote_name(schema)));
        check_form_of_tables(work, schema);
        prepare_rows(work, *connection_);
        connection_->prepare(
            "checkpoint",
            fmt::format("WITH put AS (INSERT INTO checkpoint (number, term, place, event, seal, "
                        "is_end, signature) VALUES ($1, $2, $3, $4, $5, $6, $7) RETURNING number) "
                        "SELECT {} FROM put",
                        required("checkpoint", "count(*) = 1")));
        work.exec(fmt::format("PREPARE seal_and_speak AS WITH sealed AS (INSERT INTO seal (number, "
                              "term, place, event, notes, hash, mac) VALUES ($2, $3, $4, $5, $6, "
                              "$7, $8) RETURNING number) SELECT speak($1), {} FROM sealed",
                              required("seal", "count(*) = 1")));
        work.exec("PREPARE speak AS SELECT speak($1)");
    }

    static void check_form(pqxx::nontransaction &work, const std::string &schema) {
        const pqxx::result form =
            work.exec(fmt::format("SELECT number FROM {}.form", work.quote_name(schema)));
        if (form.size() != 1 || number_of(form[0][0]) != form_of_log) {
            throw std::runtime_error(
                another_form(schema, form.empty() ? 0 : number_of(form[0][0])));
        }
    }

    // Of two gateways that begin at once the second waits for the first by the schema's name, which
    // nobody can hold who may not make one, and finds the tables then.
    static void make_tables(pqxx::nontransaction &work, const std::string &schema) {
        if (has_tables(work, schema)) {
            return;
        }
        try {
            if (has_owner(work)) {
                work.exec_params("SELECT mireseason.make_log($1)", schema);
            } else {
                make_own_tables(work, work.quote_name(schema));
            }
        } catch (const pqxx::sql_error &) {
            work.exec("ROLLBACK");
            if (!has_tables(work, schema)) {
                throw;
            }
        }
    }

    static bool has_tables(pqxx::nontransaction &work, const std::string &schema) {
        return !work.exec_params("SELECT FROM pg_tables WHERE schemaname = $1", schema).empty();
    }

    // Whether the logs of this database have an owner, whose function makes their tables
    // (install/hosts/config/database.sql): then this role may not.
    static bool has_owner(pqxx::nontransaction &work) {
        return work.exec("SELECT to_regprocedure('mireseason.make_log(text)') IS NOT NULL")[0][0]
            .as<bool>();
    }

    static void make_own_tables(pqxx::nontransaction &work, const std::string &name) {
        work.exec("BEGIN");
        work.exec(
            fmt::format("CREATE SCHEMA IF NOT EXISTS {0}; SET LOCAL search_path TO {0}", name));
        work.exec(schema_text());
        work.exec(terms_text());
        work.exec("COMMIT");
    }

    // It commits nothing any more, but may have rows in the way of those that come.
    void end_backend(int backend, const std::string &began) {
        pqxx::nontransaction work(*connection_);
        work.exec_params("SELECT pg_terminate_backend(pid, 5000) FROM pg_stat_activity "
                         "WHERE pid = $1 AND backend_start = $2",
                         backend, began);
    }

    // libpqxx connects again by itself. Then the term is another gateway's to take.
    void check_connection() const {
        if (connection_->backendpid() != backend_) {
            throw std::runtime_error("PostgreSQL: the connection was lost, and with it the term");
        }
    }

    std::unique_ptr<pqxx::connection> connection_;
    Warnings warnings_;
    int backend_ = 0;
    std::uint32_t term_ = 0;
    std::chrono::steady_clock::time_point seen_{};
};

class PostgresWriter final : public LogWriter {
  public:
    explicit PostgresWriter(std::shared_ptr<WritingConnection> connection)
        : connection_(std::move(connection)) {}

    void commit(const Batch &batch) override {
        told("commit", [&] { connection_->commit(batch); });
    }
    // The transaction waits for no disk.
    void commit_copies(const Batch &batch) override {
        told("commit", [&] { connection_->commit(batch, "SET LOCAL synchronous_commit TO off"); });
    }
    void be_seen() override { commit(Batch{}); }

  private:
    std::shared_ptr<WritingConnection> connection_;
};

class Postgres final : public Database {
  public:
    explicit Postgres(PostgresPlace place) : place_(std::move(place)) {}

    std::unique_ptr<LogReader> reader() override {
        told("the log", [&] { connection(); });
        return read_postgres(place_.connection, place_.schema);
    }

    std::optional<std::uint32_t> take_over() override {
        try {
            return told("taking over", [&] { return connection()->take_over(place_.gateway); });
        } catch (const DatabaseAway &) {
            // The next call has a new connection.
            const std::lock_guard lock(mutex_);
            writing_.reset();
            throw;
        }
    }

    std::unique_ptr<LogWriter> writer() override {
        return std::make_unique<PostgresWriter>(told("a writer", [&] { return connection(); }));
    }

  private:
    // The first one makes the tables.
    std::shared_ptr<WritingConnection> connection() {
        const std::lock_guard lock(mutex_);
        if (!writing_) {
            writing_ = std::make_shared<WritingConnection>(place_);
        }
        return writing_;
    }

    PostgresPlace place_;
    std::mutex mutex_;
    std::shared_ptr<WritingConnection> writing_;
};

} // namespace

std::unique_ptr<Database> open_postgres(PostgresPlace place) {
    return std::make_unique<Postgres>(std::move(place));
}

} // namespace gateway
