// The rows of a log's file that somebody has prepared: what is put there stands there, or the
// commit fails; and what is read there as a number is one.
#define DOCTEST_CONFIG_IMPLEMENT_WITH_MAIN
#include <doctest/doctest.h>

#include "check.h"
#include "log/database.h"
#include "log/sqlite_statement.h"

#include <functional>
#include <memory>
#include <string>
#include <utility>
#include <vector>

#include <fmt/format.h>

namespace gateway::tests {

namespace {

namespace fs = std::filesystem;

const std::vector<std::string> tables = {"entry", "connection", "sent", "seal", "checkpoint"};

// A row of each table.
Batch rows_of(std::uint32_t number) {
    Batch batch;
    batch.entries.emplace_back().place = number;
    batch.connections.emplace_back().place = number;
    batch.sent.push_back({"F", number, 7, "35=AI", {}});
    batch.seal.emplace().at.seal = number;
    batch.checkpoints.emplace_back().number = number;
    return batch;
}

// A log of which somebody has the file, too.
class OpenLog {
  public:
    explicit OpenLog(const fs::path &folder) : file_(folder / "day.db") {}

    // With the definition of one table as it is made by a change.
    void make(const std::string &table, const std::function<std::string(std::string)> &change) {
        std::string text = schema_text();
        const std::size_t begin = text.find("CREATE TABLE " + table + " (");
        const std::size_t end = text.find("\n);", begin);
        run(text.replace(begin, end - begin, change(text.substr(begin, end - begin))));
    }
    void run(const std::string &statements) const {
        const auto connection = sqlite::connect(file_, SQLITE_OPEN_READWRITE | SQLITE_OPEN_CREATE);
        sqlite::execute(connection.get(), statements.c_str());
    }
    Database &database() {
        if (!database_) {
            database_ = open_sqlite(file_);
            writer_ = database_->writer();
        }
        return *database_;
    }
    // Why the commit fails; empty where it does not.
    std::string commit(const Batch &batch) {
        database();
        return fault_of([&] { writer_->commit(batch); });
    }
    static std::string fault_of(const std::function<void()> &work) {
        try {
            work();
        } catch (const std::runtime_error &fault) {
            return fault.what();
        }
        return "";
    }
    // Once the writer has ended.
    std::uint32_t count(const std::string &table) {
        writer_.reset();
        database_.reset();
        const auto connection = sqlite::connect(file_, SQLITE_OPEN_READWRITE);
        sqlite::Statement rows(connection.get(), "SELECT count(*) FROM " + table);
        return rows.step() ? rows.number(0) : 0;
    }

  private:
    const std::string file_;
    std::unique_ptr<Database> database_;
    std::unique_ptr<LogWriter> writer_;
};

// A column whose values all rows of rows_of() share.
std::string shared_in(const std::string &table) {
    return table == "sent" ? "place" : "term";
}

} // namespace

// SQLite takes an INSERT for done whose row it leaves out, or puts into the place of another.
TEST_CASE("a definition that drops rows") {
    for (const std::string &table : tables) {
        for (const char *rule : {"IGNORE", "REPLACE"}) {
            const Scratch folder("log_rows");
            OpenLog log(folder.path());
            log.make(table, [&](const std::string &text) {
                return fmt::format("{},\n UNIQUE ({}) ON CONFLICT {}", text, shared_in(table),
                                   rule);
            });
            same<std::string>("", log.commit(rows_of(1)), table + ": the first commit");
            const std::string fault = log.commit(rows_of(2));
            check(fault.find(fmt::format("constraint failed: {}.{}", table, shared_in(table))) !=
                      std::string::npos,
                  fmt::format("{} of {}: '{}'", rule, table, fault));
            for (const std::string &each : tables) {
                same(1U, log.count(each), table + ": rows of " + each);
            }
        }
    }
}

// The start has looked at the definitions by then.
TEST_CASE("a definition that is changed while the gateway writes") {
    for (const std::string &table : tables) {
        const Scratch folder("log_rows");
        OpenLog log(folder.path());
        same<std::string>("", log.commit(rows_of(1)), table + ": the first commit");
        log.run("ALTER TABLE " + table + " RENAME TO other; CREATE TABLE " + table +
                " AS SELECT * FROM other");
        const std::string fault = log.commit(rows_of(2));
        check(fault.find("somebody has changed its definitions") != std::string::npos,
              fmt::format("{}: '{}'", table, fault));
        same(1U, log.count("entry"), table + ": entries");
    }
}

// What an operator may do to a log in use changes none.
TEST_CASE("a file that is put in order while the gateway writes") {
    for (const char *order :
         {"ANALYZE", "VACUUM", "REINDEX", "CREATE INDEX IF NOT EXISTS moments ON entry (moment)"}) {
        const Scratch folder("log_rows");
        OpenLog log(folder.path());
        same<std::string>("", log.commit(rows_of(1)), "the first commit");
        log.run(order);
        same<std::string>("", log.commit(rows_of(2)), fmt::format("behind {}", order));
        log.run(order);
        same<std::string>("", log.commit(rows_of(3)), fmt::format("behind a second {}", order));
        same(3U, log.count("entry"), fmt::format("entries behind {}", order));
    }
}

// A row that the gateway before has put there stays, and no other one is left out.
TEST_CASE("what is put there again") {
    const Scratch folder("log_rows");
    OpenLog log(folder.path());
    log.make("sent", [](const std::string &text) {
        return text + ",\n UNIQUE (bytes) ON CONFLICT IGNORE";
    });
    Batch batch;
    batch.sent = {{"F", 1, 7, "first", {}}};
    same<std::string>("", log.commit(batch), "the first time");
    batch.is_repeated = true;
    same<std::string>("", log.commit(batch), "the second time");
    batch.sent = {{"F", 2, 7, "first", {}}};
    const std::string fault = log.commit(batch);
    check(fault.find("UNIQUE constraint failed: sent.bytes") != std::string::npos, fault);
}

// Of one that is cut to its last four bytes two rows have one number.
TEST_CASE("a column that has no number of its type") {
    struct Column {
        const char *table;
        const char *name;
        bool is_key = false;
        bool may_be_below = false; // -1 says something
    };
    constexpr Column columns[] = {
        {"entry", "place", true},
        {"entry", "term"},
        {"entry", "number"},
        {"entry", "connection"},
        {"connection", "place", true},
        {"connection", "term"},
        {"connection", "entry"},
        {"connection", "number"},
        {"connection", "left_out"},
        {"seal", "number", true},
        {"seal", "term"},
        {"seal", "place", false, true},
        {"seal", "event"},
        {"checkpoint", "number", true},
        {"checkpoint", "term"},
        {"checkpoint", "place", false, true},
        {"checkpoint", "event"},
        {"checkpoint", "seal"},
        {"checkpoint", "is_end"},
    };
    const Scratch folder("log_rows");
    OpenLog log(folder.path());
    same<std::string>("", log.commit(rows_of(1)), "a commit");
    const auto read = [&] {
        const auto reader = log.database().reader();
        reader->entries(0, 9);
        reader->connection_events(0, 9);
        reader->seals(0, 9);
        reader->last_checkpoint();
    };
    same<std::string>("", OpenLog::fault_of(read), "what a gateway has written");
    for (const Column &column : columns) {
        const auto set = [&](const std::string &value) {
            log.run(fmt::format("UPDATE {} SET {} = {}", column.table, column.name, value));
        };
        std::vector<std::string> wrong{"4294967296", "4294967297"};
        if (!column.is_key) {
            wrong.insert(wrong.end(), {"'x'", "1.5", "x'31'", column.may_be_below ? "-2" : "-1"});
        }
        if (column.may_be_below) {
            wrong.push_back("4294967295"); // it would be -1
        }
        for (const std::string &value : wrong) {
            set(value);
            const std::string fault = OpenLog::fault_of(read);
            check(fault.find(fmt::format("{}.{} has something else than a number", column.table,
                                         column.name)) != std::string::npos,
                  fmt::format("{}.{} = {}: '{}'", column.table, column.name, value, fault));
        }
        set("1");
    }
    log.run("UPDATE seal SET place = -1; UPDATE checkpoint SET place = -1");
    const auto reader = log.database().reader();
    same(before_day, reader->seals(0, 9).at(0).at.place, "the place of a seal before the day");
    same(before_day, reader->last_checkpoint().value().at.place, "that of a checkpoint");
}

} // namespace gateway::tests
