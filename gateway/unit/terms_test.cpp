// Two gateways on one log in PostgreSQL: which may write, and that the other can't; tables that
// somebody has changed; and a commit that the server did not make safe.
#define DOCTEST_CONFIG_IMPLEMENT_WITH_MAIN
#include <doctest/doctest.h>

#include "check.h"
#include "log/database.h"
#include "log_schema.h"

#include <chrono>
#include <cstdlib>
#include <fstream>
#include <future>
#include <iostream>
#include <iterator>
#include <memory>
#include <optional>
#include <string>
#include <vector>

#include <fmt/format.h>
#include <pqxx/pqxx>

namespace gateway::tests {

namespace {

using namespace std::chrono_literals;

// The schema of a test, and what is done to it behind the gateways' backs.
class Schema {
  public:
    explicit Schema(const std::string &connection)
        : text_(connection), name_(log_schema("terms_test")), connection_(connection) {}
    ~Schema() { drop_if_own(connection_, name_); }
    Schema(const Schema &) = delete;
    Schema &operator=(const Schema &) = delete;

    // more is put after the connection string.
    std::unique_ptr<Database> open(const std::string &gateway, const std::string &more = "") const {
        return open_postgres({text_ + more, name_, gateway});
    }
    const std::string &text() const { return text_; }
    const std::string &name() const { return name_; }
    // How many rows it gives.
    std::size_t run(const std::string &statement) {
        pqxx::nontransaction work(connection_);
        return work.exec("SET search_path TO " + name_ + "; " + statement).size();
    }
    // The one value that it gives.
    std::string text_of(const std::string &query) {
        pqxx::nontransaction work(connection_);
        return work.exec("SET search_path TO " + name_ + "; " + query).at(0).at(0).c_str();
    }

  private:
    std::string text_;
    std::string name_;
    pqxx::connection connection_;
};

Batch batch_of(std::uint32_t place, std::uint32_t term) {
    Entry entry;
    entry.place = place;
    entry.term = term;
    entry.moment = "09:00:00.000";
    entry.line = "clock 09:00:00.000";
    entry.hash = hash_of(entry);
    Batch batch;
    batch.entries.push_back(entry);
    return batch;
}

template <typename Work> std::string thrown_by(Work work) {
    try {
        work();
    } catch (const std::runtime_error &fault) {
        return fault.what();
    }
    return "";
}

void one_speaks(Schema &schema) {
    const auto first = schema.open("first");
    const auto second = schema.open("second");
    same(1U, first->take_over().value_or(0), "the first term");
    check(!second->take_over(), "two gateways speak");
    const auto writer = first->writer();
    writer->commit(batch_of(0, 1));
    writer->be_seen();
    check(!second->take_over(), "two gateways speak after a commit");
    same<std::size_t>(1, second->reader()->entries(0, 9).size(), "entries that the second reads");
    const std::string other = thrown_by([&] { writer->commit(batch_of(1, 2)); });
    check(other.find("term 2 is over") != std::string::npos, "an entry of another term: " + other);
    // What is given for an entry is committed without a seal, and in a table that has no term.
    Batch given;
    given.sent.push_back({"F", 1, 0, "35=AI", {}});
    schema.run("UPDATE speaker SET term = term + 1");
    const std::string old = thrown_by([&] { writer->commit(given); });
    check(old.find("term 1 is over") != std::string::npos, "messages alone in an old term: " + old);
    schema.run("UPDATE speaker SET term = term - 1");
}

// The connection of a gateway that has gone is closed, and that of one that hangs is not.
void terms_rise(Schema &schema) {
    auto second = schema.open("second");
    same(2U, second->take_over().value_or(0), "the term after a gateway that has gone");
    second->writer()->commit(batch_of(1, 2));
    const auto third = schema.open("third");
    // Nothing but the take-over itself comes in the three seconds that are left of its five.
    schema.run("UPDATE speaker SET seen = clock_timestamp() - interval '2 seconds'");
    check(!third->take_over(), "a gateway takes over from one that is there");
    schema.run("UPDATE speaker SET seen = seen - interval '4 seconds'");
    same(3U, third->take_over().value_or(0), "the term after a gateway that hangs");
    third->writer()->commit(batch_of(2, 3));
    check(!thrown_by([&] { second->writer()->commit(batch_of(3, 2)); }).empty(),
          "a gateway whose term is over writes");
    same<std::size_t>(3, third->reader()->entries(0, 9).size(), "entries");
}

void tables_refuse(Schema &schema) {
    for (const char *row :
         {"entry VALUES (9, {}, '', '', NULL, NULL, NULL, '', '', '')",
          "connection VALUES (9, {}, '', '', 0, NULL, NULL, '', NULL, NULL, 0, '', '')"}) {
        const std::string insert = std::string("INSERT INTO ") + row;
        const auto put = [&](int term) { schema.run(fmt::format(fmt::runtime(insert), term)); };
        const std::string old = thrown_by([&] { put(2); });
        check(old.find("term 2 is over: third speaks in term 3") != std::string::npos,
              "a row of an old term: " + old);
        same<std::string>("", thrown_by([&] { put(3); }), "a row of the term of now");
    }
}

// A gateway of another version has begun the day.
void another_form(Schema &schema) {
    same(1U, schema.open("old")->take_over().value_or(0), "the term of the one that began the day");
    schema.run("UPDATE form SET number = 2");
    const std::string told = thrown_by([&] { schema.open("new")->take_over(); });
    check(told.find("has tables of form 2, and this gateway's are of form 6: no day spans") !=
              std::string::npos,
          "told of another form: " + told);
}

// What the owner of a day's tables may have done to them, and how a gateway names it.
struct Changed {
    std::string statement;
    std::string told;
};

const std::vector<Changed> &changes() {
    static const std::vector<Changed> all{
        {"CREATE OR REPLACE FUNCTION speak(mine INTEGER) RETURNS VOID LANGUAGE plpgsql AS $$ BEGIN "
         "END $$",
         "function speak(mine integer) is another: RETURNS void LANGUAGE plpgsql AS  BEGIN END"},
        {"ALTER FUNCTION speak SET search_path TO public",
         "function speak(mine integer) is another: RETURNS void LANGUAGE plpgsql "
         "search_path=public AS"},
        {"ALTER FUNCTION speak SECURITY DEFINER",
         "function speak(mine integer) is another: RETURNS void LANGUAGE plpgsql SECURITY DEFINER"},
        {"CREATE FUNCTION speak(mine BIGINT) RETURNS VOID LANGUAGE SQL AS ''",
         "function speak(mine bigint) is none of a gateway's"},
        {"DROP FUNCTION take_over; CREATE FUNCTION take_over(name TEXT) RETURNS TABLE (new_term "
         "INTEGER, old_backend INTEGER, old_began TIMESTAMPTZ) LANGUAGE SQL AS 'SELECT 1, 0, "
         "now()'",
         "function take_over(name text) is another: RETURNS TABLE(new_term integer, old_backend "
         "integer, old_began timestamp with time zone) LANGUAGE sql AS SELECT 1, 0, now()"},
        {"DROP TRIGGER one_term ON entry", "trigger one_term of entry is not there"},
        {"ALTER TABLE seal DISABLE TRIGGER one_term",
         "trigger one_term of seal is another: not enabled (D): CREATE TRIGGER"},
        {"CREATE FUNCTION other() RETURNS TRIGGER LANGUAGE plpgsql AS 'BEGIN NEW.told = NULL; "
         "RETURN NEW; END'; CREATE TRIGGER other BEFORE INSERT ON sent FOR EACH ROW EXECUTE "
         "FUNCTION "
         "other()",
         "function other() is none of a gateway's; trigger other of sent is none of a gateway's"},
        {"CREATE RULE other AS ON INSERT TO sent DO INSTEAD NOTHING",
         "rule other of sent is none of a gateway's"},
        {"ALTER TABLE entry DROP CONSTRAINT entry_pkey",
         "constraint entry_pkey of entry is not there"},
        {"ALTER TABLE speaker DROP CONSTRAINT speaker_one_check",
         "constraint speaker_one_check of speaker is not there"},
        {"ALTER TABLE sent ADD CHECK (place < 100)",
         "constraint sent_place_check of sent is none of a gateway's"},
        {"CREATE UNIQUE INDEX other ON sent (place)", "index other of sent is none of a gateway's"},
        {"CREATE INDEX other ON sent (lower(firm))", "index other of sent is none of a gateway's"},
        {"CREATE UNIQUE INDEX other ON sent (number, firm) WHERE place > 9",
         "index other of sent is none of a gateway's"},
        {"CREATE UNIQUE INDEX other ON sent (firm) INCLUDE (number)",
         "index other of sent is none of a gateway's"},
        {"CREATE COLLATION blind (PROVIDER = icu, LOCALE = 'und-u-ks-level2', DETERMINISTIC = "
         "false); CREATE UNIQUE INDEX other ON sent (firm COLLATE blind, number)",
         "index other of sent is none of a gateway's"},
        {"ALTER TABLE sent RENAME TO other; CREATE VIEW sent AS SELECT * FROM other",
         "table sent is another: no table (v): firm text, number integer"},
        {"CREATE TABLE other () INHERITS (speaker)",
         "child other of speaker is none of a gateway's"},
        {"ALTER TABLE entry SET UNLOGGED", "table entry is another: unlogged: place integer"},
        {"ALTER TABLE sent ENABLE ROW LEVEL SECURITY",
         "table sent is another: with row security: firm text"},
        {"CREATE POLICY other ON sent", "policy other of sent is none of a gateway's"},
        {"ALTER TABLE sent ALTER told SET DEFAULT 'x'",
         "table sent is another: firm text NOT NULL, number integer NOT NULL, place integer NOT "
         "NULL, bytes bytea NOT NULL, told text DEFAULT 'x'::text"},
        {"ALTER TABLE form ADD COLUMN other INTEGER",
         "table form is another: number integer NOT NULL, other integer"},
        {"CREATE OPERATOR === (LEFTARG = TEXT, RIGHTARG = TEXT, FUNCTION = texteq)",
         "operator === is none of a gateway's"},
        {"CREATE FUNCTION \"one\ntwo\"() RETURNS VOID LANGUAGE SQL AS ''",
         "function one?two() is none of a gateway's"},
        // Of the server's names, and of types that a look at the functions fits better than the
        // server's own do: they say of each that it is the one that gateways make.
        {"CREATE TABLE kept AS SELECT prosrc FROM pg_proc JOIN pg_class ON pronamespace = "
         "relnamespace WHERE proname = 'speak' AND pg_class.oid = 'speaker'::regclass; "
         "CREATE OR REPLACE FUNCTION speak(mine INTEGER) RETURNS VOID LANGUAGE plpgsql AS ' BEGIN "
         "END'; "
         "CREATE FUNCTION format(form TEXT, name NAME, words TEXT) RETURNS TEXT LANGUAGE SQL AS $$ "
         "SELECT CASE WHEN name IN ('format', 'concat') THEN 'function speak(mine integer)' ELSE "
         "pg_catalog.format(form, name, words) END $$; "
         "CREATE FUNCTION concat(TEXT, TEXT, TEXT, TEXT, NAME, TEXT, TEXT, TEXT, TEXT, TEXT, TEXT, "
         "TEXT) RETURNS TEXT LANGUAGE SQL AS $$ SELECT CASE WHEN $12 = ' BEGIN END' OR $12 LIKE "
         "'%pg_catalog%' THEN (SELECT 'RETURNS void LANGUAGE plpgsql AS ' || prosrc FROM kept) "
         "ELSE pg_catalog.concat($1, $2, $3, $4, $5, $6, $7, $8, $9, $10, $11, $12) END $$",
         "function speak(mine integer) is another: RETURNS void LANGUAGE plpgsql AS  BEGIN END"},
        // Whoever reads the form looks for the server's own tables here first.
        {"ALTER TABLE form RENAME TO other; "
         "DO $do$ BEGIN EXECUTE format($f$ CREATE FUNCTION moves() RETURNS INTEGER LANGUAGE SQL AS "
         "'SELECT set_config(''search_path'', ''%s, pg_catalog'', false); SELECT 6' $f$, "
         "current_schema()); END $do$; "
         "CREATE VIEW form AS SELECT moves() AS number; "
         "CREATE VIEW pg_class AS SELECT oid, relname, relnamespace, CASE WHEN relname = 'form' "
         "THEN 'r' ELSE relkind END AS relkind, relpersistence, relrowsecurity FROM "
         "pg_catalog.pg_class; "
         "CREATE VIEW pg_attribute AS SELECT attrelid, attname, attnum, atttypid, atttypmod, "
         "attisdropped, attidentity, attnotnull OR attrelid = 'form'::regclass AS attnotnull FROM "
         "pg_catalog.pg_attribute; "
         "CREATE VIEW pg_rewrite AS SELECT * FROM pg_catalog.pg_rewrite WHERE false; "
         "CREATE VIEW pg_proc AS SELECT * FROM pg_catalog.pg_proc WHERE proname <> 'moves'",
         "table form is another: no table (v): number integer"},
    };
    return all;
}

// Each on a log of its own, by a gateway that starts; one that is as gateways make it is taken.
void changed_tables(const std::string &connection) {
    for (const Changed &changed : changes()) {
        Schema schema(connection);
        same<std::string>("", thrown_by([&] { schema.open("made")->take_over(); }), "a new log");
        same<std::string>("", thrown_by([&] { schema.open("again")->take_over(); }), "the same");
        schema.run(changed.statement);
        const std::string told = thrown_by([&] { schema.open("next")->take_over(); });
        check(told.find(schema.name() + " is not as gateways make it: ") == 0 &&
                  told.find(changed.told) != std::string::npos,
              changed.statement + ": " + told);
    }
}

// What changes no row, and what a gateway does not use.
void other_tables(Schema &schema) {
    schema.open("made")->take_over();
    schema.run("CREATE TABLE other (place INTEGER PRIMARY KEY); CREATE VIEW read AS SELECT * FROM "
               "entry; CREATE INDEX moments ON entry (moment)");
    // REINDEX CONCURRENTLY has one as long as it takes, and leaves it where it fails.
    schema.run("CREATE UNIQUE INDEX sent_pkey_ccnew ON sent (firm, number)");
    same<std::string>("", thrown_by([&] { schema.open("next")->take_over(); }), "more tables");
    // A role, or the whole database, may have it so: the server writes each name otherwise then.
    const auto quoted = [&] {
        return schema.open("quoted", " options='-c quote_all_identifiers=on'")->take_over();
    };
    same<std::string>("", thrown_by(quoted), "names in quotation marks");
}

// The tables are made by a function of their owner, which leaves some of the same names, and
// settings, in the gateway's own session.
class OwnersFunction {
  public:
    explicit OwnersFunction(const Schema &schema) : connection_(schema.text()) {
        run(fmt::format(
            "CREATE SCHEMA mireseason; CREATE FUNCTION mireseason.make_log(name TEXT) RETURNS VOID "
            "LANGUAGE plpgsql AS $make$ BEGIN EXECUTE format('CREATE SCHEMA %I', name); EXECUTE "
            "format('SET LOCAL search_path TO %I', name); EXECUTE $tables${}$tables$; EXECUTE "
            "$tables${}$tables$; CREATE TEMP TABLE entry (LIKE entry); SET synchronous_commit TO "
            "off; END $make$",
            schema_text(), terms_text()));
    }
    ~OwnersFunction() { run("DROP SCHEMA mireseason CASCADE"); }
    OwnersFunction(const OwnersFunction &) = delete;
    OwnersFunction &operator=(const OwnersFunction &) = delete;

  private:
    void run(const std::string &statement) { pqxx::nontransaction(connection_).exec(statement); }

    pqxx::connection connection_;
};

void left_in_the_session(Schema &schema) {
    const OwnersFunction owner(schema);
    const auto database = schema.open("gateway");
    const std::uint32_t term = database->take_over().value_or(0);
    database->writer()->commit(batch_of(0, term));
    same<std::size_t>(1, schema.run("SELECT FROM entry"), "entries of the log");
}

// A gateway that has looked at the row for a commit that does not come: the row is locked, and its
// connection is open.
class Hanging {
  public:
    Hanging(Schema &schema, unsigned term)
        : connection_(schema.text() +
                      " options='-c statement_timeout=60000 -c lock_timeout=60000'") {
        schema.run(silent);
        {
            pqxx::nontransaction work(connection_);
            work.exec("SET search_path TO " + schema.name());
            const pqxx::result rows = work.exec("SELECT new_term FROM take_over('hanging')");
            same<std::size_t>(1, rows.size(), "a term");
            same(term, rows[0][0].as<unsigned>(), "the term of one that hangs");
        }
        schema.run(silent);
        begun_ = std::make_unique<pqxx::work>(connection_);
        begun_->exec(fmt::format("SELECT speak({})", term));
    }

    void run(const std::string &statement) { begun_->exec(statement); }

  private:
    // Whoever speaks has said nothing for too long.
    static constexpr const char *silent = "UPDATE speaker SET seen = seen - interval '6 seconds'";

    pqxx::connection connection_;
    std::unique_ptr<pqxx::work> begun_;
};

// One that takes over, and waits for nothing without end.
std::unique_ptr<Database> next_of(const Schema &schema) {
    return schema.open("next", " options='-c statement_timeout=30000'");
}

std::uint32_t term_of(Database &next) {
    const auto latest = std::chrono::steady_clock::now() + 60s;
    std::optional<std::uint32_t> term;
    while (!term) {
        check(std::chrono::steady_clock::now() < latest, "it does not take over");
        term = next.take_over();
    }
    return *term;
}

void hangs_in_a_transaction(Schema &schema) {
    const Hanging hanging(schema, 4);
    const auto next = next_of(schema);
    same(5U, term_of(*next), "the term after a gateway that hangs in a commit");
    next->writer()->commit(batch_of(3, 5));
}

// A row that is about to be there: whoever puts the same one is at work until it is known. (A
// gateway's role may lock no table of the log.)
class HalfPutRow {
  public:
    explicit HalfPutRow(const Schema &schema, const std::string &statement = put)
        : connection_(schema.text()), work_(std::make_unique<pqxx::work>(connection_)) {
        work_->exec(fmt::format("SET search_path TO {}", schema.name()));
        work_->exec(statement);
    }
    void take_back() { work_.reset(); }

    static constexpr const char *put = "INSERT INTO checkpoint VALUES (1, 0, 0, 0, 0, 0, '')";

  private:
    pqxx::connection connection_;
    std::unique_ptr<pqxx::work> work_;
};

// Until what is at work waits for a row that is half put.
template <typename Result> void wait_at_work(Schema &schema, std::future<Result> &done) {
    const std::string waits =
        "SELECT FROM pg_locks WHERE locktype = 'transactionid' AND NOT granted";
    while (schema.run(waits) == 0) {
        check(done.wait_for(10ms) != std::future_status::ready, "it is not at work");
    }
}

// Its server is at work when it is looked at, and it hangs after that.
void hangs_behind_its_work(Schema &schema) {
    Hanging hanging(schema, 6);
    HalfPutRow row(schema);
    auto done = std::async(std::launch::async, [&] { hanging.run(HalfPutRow::put); });
    wait_at_work(schema, done);
    const auto next = next_of(schema);
    check(!next->take_over(), "a gateway takes over from one whose server is at work");
    row.take_back();
    done.get();
    same(7U, term_of(*next), "the term after a gateway that hangs after its work");
    next->writer()->commit(batch_of(4, 7));
}

// What stands in a batch stays text, also on a server that reads a backslash as no sign of a text.
void texts_stay_texts(Schema &schema) {
    const std::string text = R"(\'); DELETE FROM entry; --)";
    const auto next = schema.open("texts", " options='-c standard_conforming_strings=off'");
    const std::uint32_t term = term_of(*next);
    Batch batch = batch_of(5, term);
    batch.entries[0].firm = text;
    batch.entries[0].line = text;
    batch.sent.push_back({text, 1, 5, text, text});
    next->writer()->commit(batch);
    const Entry entry = next->reader()->entries(5, 1).at(0);
    check(entry.firm == text && entry.line == text, "an entry has another text");
    same<std::size_t>(1,
                      schema.run("SELECT FROM sent WHERE firm = $$" + text + "$$ AND told = firm"),
                      "rows with the text");
}

// The server ends the connection in the middle of a batch that it was given at once: nothing of it
// is there, and no other connection is taken for the next one.
void ends_in_a_batch(Schema &schema) {
    const auto next = schema.open("ended");
    Batch batch = batch_of(6, term_of(*next));
    batch.sent.push_back({"F", 9, 6, "35=AI", {}});
    const auto writer = next->writer();
    HalfPutRow row(schema, "INSERT INTO sent VALUES ('F', 9, 6, '', NULL)");
    const auto told = [&] { return thrown_by([&] { writer->commit(batch); }); };
    auto done = std::async(std::launch::async, told);
    wait_at_work(schema, done);
    schema.run("SELECT pg_terminate_backend(backend) FROM speaker");
    check(!done.get().empty(), "a batch whose connection has ended is committed");
    row.take_back();
    check(!told().empty(), "the next one is committed without the term");
    same<std::size_t>(0, schema.run("SELECT FROM entry WHERE place = 6"), "entries of the batch");
}

// A server whose commits wait for a standby that there is none of.
class NoStandby {
  public:
    explicit NoStandby(const Schema &schema) : connection_(schema.text()) {
        set("SET synchronous_standby_names TO 'nobody'");
    }
    ~NoStandby() { set("RESET synchronous_standby_names"); }
    NoStandby(const NoStandby &) = delete;
    NoStandby &operator=(const NoStandby &) = delete;

    // As an operator does who would have it go on.
    void cancel_waits() {
        pqxx::nontransaction work(connection_);
        work.exec(
            "SELECT pg_cancel_backend(pid) FROM pg_stat_activity WHERE wait_event = 'SyncRep'");
    }

  private:
    void set(const std::string &what) {
        pqxx::nontransaction work(connection_);
        work.exec("ALTER SYSTEM " + what);
        work.exec("SELECT pg_reload_conf()");
    }

    pqxx::connection connection_;
};

// The commit succeeds, with a warning alone.
void waits_for_nobody(Schema &schema) {
    const auto next = schema.open("waits");
    const std::uint32_t term = term_of(*next);
    const auto writer = next->writer();
    NoStandby server(schema);
    const auto latest = std::chrono::steady_clock::now() + 60s;
    std::string told;
    // The server may need some commits to hear of its standby.
    for (std::uint32_t place = 10; told.empty(); ++place) {
        check(std::chrono::steady_clock::now() < latest, "no commit that is not safe is told");
        auto done = std::async(std::launch::async, [&] {
            return thrown_by([&] { writer->commit(batch_of(place, term)); });
        });
        while (done.wait_for(10ms) != std::future_status::ready) {
            server.cancel_waits();
        }
        told = done.get();
    }
    check(told.find("one machine alone") != std::string::npos, "told of it: " + told);
}

// Rows of each table, from a place and a number on: so few that they are put by single statements,
// or copied.
Batch rows_from(std::uint32_t first, std::uint32_t term, bool are_copied) {
    Batch batch;
    const std::uint32_t count = are_copied ? 6 : 2;
    for (std::uint32_t place = first; place < first + count; ++place) {
        batch.entries.push_back(batch_of(place, term).entries.front());
        batch.sent.push_back({"F", place, place, "35=AI", {}});
    }
    batch.seal.emplace().at.seal = first;
    batch.seal->at.term = term;
    if (are_copied) {
        batch.connections.emplace_back().place = first;
        batch.connections.back().term = term;
        batch.checkpoints.emplace_back().number = first;
    }
    return batch;
}

// As long as it lives the server takes no row of a table, and calls each INSERT done.
class Muted {
  public:
    Muted(Schema &schema, const std::string &table) : schema_(schema), table_(table) {
        schema_.run("CREATE FUNCTION mute() RETURNS TRIGGER LANGUAGE plpgsql AS 'BEGIN RETURN "
                    "NULL; END'; CREATE TRIGGER mute BEFORE INSERT ON " +
                    table_ + " FOR EACH ROW EXECUTE FUNCTION mute()");
    }
    ~Muted() { schema_.run("DROP TRIGGER mute ON " + table_ + "; DROP FUNCTION mute()"); }
    Muted(const Muted &) = delete;
    Muted &operator=(const Muted &) = delete;

  private:
    Schema &schema_;
    const std::string table_;
};

// Nothing of such a transaction is there, and nobody takes it for committed.
void drops_rows(Schema &schema) {
    const auto database = schema.open("dropped");
    const std::uint32_t term = database->take_over().value();
    const auto writer = database->writer();
    std::uint32_t next = 1;
    const auto commit = [&](bool are_copied) {
        return thrown_by([&] { writer->commit(rows_from(next, term, are_copied)); });
    };
    for (const bool are_copied : {false, true}) {
        for (const std::string table : {"entry", "sent", "seal", "connection", "checkpoint"}) {
            if (!are_copied && (table == "connection" || table == "checkpoint")) {
                continue;
            }
            {
                const Muted muted(schema, table);
                const std::string fault = commit(are_copied);
                check(fault.find(fmt::format("the table {} has fewer rows than were put there",
                                             table)) != std::string::npos,
                      fmt::format("rows of {} are dropped: '{}'", table, fault));
            }
            for (const char *each :
                 {"entry WHERE place", "sent WHERE number", "seal WHERE number"}) {
                same<std::size_t>(0, schema.run(fmt::format("SELECT FROM {} >= {}", each, next)),
                                  table + ": rows that are there");
            }
            same<std::string>("", commit(are_copied), table + ": once no row is dropped");
            next += 6;
        }
    }
    Batch again;
    again.sent = rows_from(1, term, false).sent;
    again.is_repeated = true;
    same<std::string>("", thrown_by([&] { writer->commit(again); }), "rows that were there");
    schema.run("CREATE RULE mute AS ON INSERT TO entry DO INSTEAD NOTHING");
    const std::string fault = commit(false);
    check(fault.find("the table entry has fewer rows") != std::string::npos, "a rule: " + fault);
    schema.run("DROP RULE mute ON entry");
}

// What the server compiles takes many times as long as a commit does: its process has not even
// loaded the compiler.
void compiles_nothing(Schema &schema) {
    const auto database = schema.open("compiles");
    const std::uint32_t term = database->take_over().value();
    const auto writer = database->writer();
    for (const bool are_copied : {false, true}) {
        writer->commit(rows_from(are_copied ? 6 : 0, term, are_copied));
    }
    writer->be_seen();
    const std::string server = schema.text_of("SELECT backend FROM speaker");
    std::ifstream file("/proc/" + server + "/maps");
    const std::string loaded{std::istreambuf_iterator<char>(file), {}};
    check(!loaded.empty(), "nothing is known of the process " + server);
    check(loaded.find("llvmjit") == std::string::npos, "the server compiles statements");
}

// Somebody may have changed the type of a column since the log was opened.
void numbers_fit(Schema &schema) {
    const auto reader = schema.open("reads")->reader();
    schema.run("ALTER TABLE checkpoint ALTER number TYPE BIGINT");
    schema.run("UPDATE checkpoint SET number = 4294967297 WHERE number = (SELECT max(number) FROM "
               "checkpoint)");
    const std::string fault = thrown_by([&] { reader->last_checkpoint(); });
    check(fault.starts_with("PostgreSQL, the last checkpoint: column number has something else"),
          "a number that does not fit: " + fault);
}

// Of the database that TEST_POSTGRES names.
std::string connection() {
    const char *given = std::getenv("TEST_POSTGRES");
    check(given != nullptr, "TEST_POSTGRES names no database");
    return given;
}

// With what a gateway may do where the logs have an owner, and no more. One log, of which each part
// goes on from where the one before it has left it.
TEST_CASE("one gateway after the other speaks") {
    Schema schema(connection());
    one_speaks(schema);
    terms_rise(schema);
    tables_refuse(schema);
    hangs_in_a_transaction(schema);
    hangs_behind_its_work(schema);
    texts_stay_texts(schema);
    ends_in_a_batch(schema);
}

// On a server of the test alone, which changes what the owner has made.
TEST_CASE("another form" * doctest::skip(std::getenv("TEST_POSTGRES_OWN") == nullptr)) {
    Schema schema(connection());
    another_form(schema);
}

// The same, as each owner may.
TEST_CASE("tables that were changed" * doctest::skip(std::getenv("TEST_POSTGRES_OWN") == nullptr)) {
    changed_tables(connection());
}

TEST_CASE("tables beside a log's" * doctest::skip(std::getenv("TEST_POSTGRES_OWN") == nullptr)) {
    Schema schema(connection());
    other_tables(schema);
}

TEST_CASE("left in the session" * doctest::skip(std::getenv("TEST_POSTGRES_OWN") == nullptr)) {
    {
        Schema schema(connection());
        left_in_the_session(schema);
    }
    Schema schema(connection());
    const OwnersFunction owner(schema);
    waits_for_nobody(schema);
}

// The same, with triggers and types of its own.
TEST_CASE("rows that are dropped" * doctest::skip(std::getenv("TEST_POSTGRES_OWN") == nullptr)) {
    Schema schema(connection());
    drops_rows(schema);
    numbers_fit(schema);
}

TEST_CASE("nothing is compiled" * doctest::skip(std::getenv("TEST_POSTGRES_OWN") == nullptr)) {
    Schema schema(connection());
    compiles_nothing(schema);
}

// The same, which sets the standbys.
TEST_CASE("waits for nobody" * doctest::skip(std::getenv("TEST_POSTGRES_OWN") == nullptr)) {
    Schema schema(connection());
    waits_for_nobody(schema);
}

} // namespace

} // namespace gateway::tests
