// Writes the log into a file of SQLite: with write-ahead logging, and every commit synchronised.
#include "log/database.h"

#include "common/descriptor.h"
#include "log/sqlite.h"
#include "log/sqlite_statement.h"

#include <algorithm>
#include <array>
#include <stdexcept>

#include <fcntl.h>
#include <fmt/format.h>
#include <sqlite3.h>
#include <sys/file.h>
#include <sys/stat.h>
#include <unistd.h>

namespace gateway {

namespace {

using sqlite::connect;
using sqlite::ConnectionPointer;
using sqlite::execute;
using sqlite::Statement;

// A write-ahead log that has its length beforehand is synchronised in half the time of one that
// grows. SQLite reads it up to the first frame that is none, and begins it anew after each
// checkpoint.
constexpr std::size_t usual_length = 8 << 20;

// It is lengthened by pages of the system, one by one. Of a piece of more the kernel makes one
// folio of its cache, all of which it walks through at each commit that writes some bytes there.
constexpr std::size_t system_page = 4096;

// Of a new file. A commit writes whole pages, as a rule the last one of `entry` alone.
constexpr int page_bytes = 2048;

// Where there is no room it grows as it would have.
void lengthen(const std::string &log) {
    const Descriptor file(::open(log.c_str(), O_WRONLY | O_CLOEXEC));
    struct stat found {};
    if (file.number() < 0 || ::fstat(file.number(), &found) != 0) {
        return;
    }
    const std::array<char, system_page> zeros{};
    auto at = static_cast<std::size_t>(found.st_size);
    while (at < usual_length) {
        const std::size_t size = system_page - at % system_page;
        const ssize_t count = ::pwrite(file.number(), zeros.data(), size, static_cast<off_t>(at));
        if (count <= 0) {
            return;
        }
        at += static_cast<std::size_t>(count);
    }
    ::fsync(file.number());
}

class SqliteWriter final : public LogWriter {
  public:
    explicit SqliteWriter(const std::string &path)
        : connection_(connect_synchronised(path)), begin_(connection_.get(), "BEGIN IMMEDIATE"),
          commit_(connection_.get(), "COMMIT"),
          entry_(connection_.get(), put_into("entry", entry_columns)),
          event_(connection_.get(), put_into("connection", connection_columns)),
          sent_(connection_.get(), put_into("sent", sent_columns)),
          sent_again_(connection_.get(),
                      put_into("sent", sent_columns) + " ON CONFLICT (firm, number) DO NOTHING"),
          seal_(connection_.get(),
                put_into("seal", "number, term, place, event, notes, hash, mac")),
          checkpoint_(
              connection_.get(),
              put_into("checkpoint", "number, term, place, event, seal, is_end, signature")) {}

    void commit(const Batch &batch) override {
        begin_.run();
        for (const ConnectionEvent &event : batch.connections) {
            put(event);
        }
        for (const Entry &entry : batch.entries) {
            put(entry);
        }
        for (const Sent &row : batch.sent) {
            put(row, batch.is_repeated);
        }
        if (batch.seal) {
            put_place(seal_, batch.seal->at.seal, batch.seal->at);
            seal_.bind_bytes(batch.seal->notes).bind_bytes(batch.seal->at.notes);
            seal_.bind_bytes(batch.seal->mac).put_row();
        }
        for (const Checkpoint &row : batch.checkpoints) {
            put_place(checkpoint_, row.number, row.at);
            checkpoint_.bind(std::int64_t{row.at.seal}).bind(std::int64_t{row.is_end});
            checkpoint_.bind_bytes(row.signature).put_row();
        }
        look_at_definitions();
        commit_.run();
        ++commits_;
        is_synchronised_ = true;
    }

    // Without its own synchronisation, which is that of the next commit. Until then no page goes
    // into the file: SQLite would synchronise the write-ahead log before, and not tell where that
    // fails. The next one would succeed, though what stands in front of its entries is lost.
    void commit_copies(const Batch &batch) override {
        execute(connection_.get(), "PRAGMA synchronous = NORMAL");
        sqlite3_wal_autocheckpoint(connection_.get(), 0);
        commit(batch);
        is_synchronised_ = false;
        sqlite3_wal_autocheckpoint(connection_.get(), usual_pages);
        execute(connection_.get(), "PRAGMA synchronous = FULL");
    }

    // Pages go from the write-ahead log into the file at such a time, so that no commit waits for
    // it. One that fails fails nothing: they stand in the write-ahead log.
    void rest() override {
        if (commits_ >= commits_of_a_checkpoint && is_synchronised_) {
            sqlite3_wal_checkpoint_v2(connection_.get(), nullptr, SQLITE_CHECKPOINT_PASSIVE,
                                      nullptr, nullptr);
            commits_ = 0;
        }
    }

    // The file is locked: nobody looks.
    void be_seen() override {}

  private:
    static void put_place(Statement &row, std::uint32_t number, const Position &at) {
        row.bind(std::int64_t{number}).bind(std::int64_t{at.term});
        row.bind(column_of_place(at.place)).bind(std::int64_t{at.event});
    }
    // Throws where somebody has changed a definition since this began to write: by another one a
    // row may stand where nobody finds it. An operator's VACUUM, ANALYZE or index changes none.
    void look_at_definitions() {
        bool may_differ = false;
        for (Statement *each : {&entry_, &event_, &sent_, &sent_again_, &seal_, &checkpoint_}) {
            may_differ = each->was_prepared_anew() || may_differ;
        }
        if (may_differ && definitions() != definitions_) {
            throw std::runtime_error(
                fmt::format("SQLite, {}: somebody has changed its definitions while this gateway "
                            "writes there",
                            sqlite::file_of(connection_.get())));
        }
    }
    // Those of all tables, but of what ANALYZE keeps, and of an index by which rows are only found.
    std::string definitions() const {
        Statement rows(connection_.get(),
                       "SELECT type || ' ' || coalesce(sql, name) FROM sqlite_schema WHERE name "
                       "NOT GLOB 'sqlite_stat*' AND coalesce(type <> 'index' OR sql NOT GLOB "
                       "'CREATE INDEX *', true) ORDER BY name");
        std::string all;
        while (rows.step()) {
            all += rows.bytes(0) + "\n";
        }
        return all;
    }
    // A table may say itself that a row which breaks a rule of it is left out, or takes the place
    // of another: that does not count here.
    static std::string put_into(std::string_view table, std::string_view columns) {
        std::string values = "?";
        for (auto left = std::ranges::count(columns, ','); left > 0; --left) {
            values += ", ?";
        }
        return fmt::format("INSERT OR ABORT INTO {} ({}) VALUES ({})", table, columns, values);
    }
    // One that is there may be a repeated one.
    void put(const Sent &row, bool is_repeated) {
        Statement &statement = is_repeated ? sent_again_ : sent_;
        statement.bind(row.firm).bind(std::int64_t{row.number}).bind(std::int64_t{row.place});
        statement.bind_bytes(row.bytes).bind(row.told);
        is_repeated ? statement.run() : statement.put_row();
    }
    void put(const Entry &entry) {
        entry_.bind(std::int64_t{entry.place}).bind(std::int64_t{entry.term}).bind(entry.moment);
        entry_.bind(entry.received).bind(entry.firm).bind(entry.number).bind(entry.connection);
        entry_.bind_bytes(entry.line).bind_bytes(entry.before).bind_bytes(entry.hash).put_row();
    }
    void put(const ConnectionEvent &event) {
        event_.bind(std::int64_t{event.place}).bind(std::int64_t{event.term}).bind(event.moment);
        event_.bind(event.event).bind(std::int64_t{event.entry}).bind(event.number);
        event_.bind(event.firm).bind(event.address).bind(event.certificate).bind(event.why);
        event_.bind(std::int64_t{event.left_out});
        event_.bind_bytes(event.before).bind_bytes(event.hash).put_row();
    }

    static ConnectionPointer connect_synchronised(const std::string &path) {
        ConnectionPointer connection = connect(path, SQLITE_OPEN_READWRITE);
        execute(connection.get(), "PRAGMA synchronous = FULL");
        // Where there never is a rest a commit does it, at the usual length.
        sqlite3_wal_autocheckpoint(connection.get(), usual_pages);
        lengthen(path + "-wal");
        return connection;
    }

    static constexpr unsigned commits_of_a_checkpoint = 100;
    static constexpr int usual_pages = static_cast<int>(usual_length) / page_bytes;

    ConnectionPointer connection_;
    unsigned commits_ = 0;        // since the last checkpoint
    bool is_synchronised_ = true; // all that is committed
    Statement begin_;
    Statement commit_;
    Statement entry_;
    Statement event_;
    Statement sent_;
    Statement sent_again_;
    Statement seal_;
    Statement checkpoint_;
    const std::string definitions_ = definitions();
};

// A lock on a file, for as long as it lives.
class FileLock {
  public:
    explicit FileLock(const std::string &path)
        : file_(::open(path.c_str(), O_RDWR | O_CREAT | O_CLOEXEC, 0600)) {
        if (file_.number() < 0 || ::flock(file_.number(), LOCK_EX | LOCK_NB) != 0) {
            const int fault = errno;
            throw std::runtime_error(
                fault == EWOULDBLOCK
                    ? fmt::format("another gateway has the log: {} is locked", path)
                    : fmt::format("{}: {}", path, std::generic_category().message(fault)));
        }
    }

  private:
    Descriptor file_;
};

class Sqlite final : public Database {
  public:
    explicit Sqlite(const std::string &path)
        : path_(path), lock_(path + ".lock"),
          connection_(connect(path, SQLITE_OPEN_READWRITE | SQLITE_OPEN_CREATE)) {
        execute(connection_.get(), fmt::format("PRAGMA page_size = {}", page_bytes).c_str());
        execute(connection_.get(), "PRAGMA journal_mode = WAL");
        execute(connection_.get(), "PRAGMA synchronous = FULL");
        take_what_was_left();
        if (!has_tables()) {
            const std::string text = fmt::format("BEGIN; {} COMMIT;", schema_text());
            execute(connection_.get(), text.c_str());
        }
        Statement form(connection_.get(), "SELECT number FROM form");
        const std::uint32_t number = form.step() ? form.number(0) : 0;
        if (number != form_of_log) {
            throw std::runtime_error(another_form(path, number));
        }
    }

    std::unique_ptr<LogReader> reader() override { return sqlite::read(path_); }
    std::optional<std::uint32_t> take_over() override { return 0; }
    std::unique_ptr<LogWriter> writer() override { return std::make_unique<SqliteWriter>(path_); }

  private:
    // Of a write-ahead log whose synchronisation failed, the system may take for written what never
    // came to the disk: a start would read it, and a cut of power take all that was put behind it.
    // So it is written into the file, and that is synchronised, before anything is built on it. A
    // reader of the log may keep some of it where it is.
    void take_what_was_left() {
        const int result = sqlite3_wal_checkpoint_v2(connection_.get(), nullptr,
                                                     SQLITE_CHECKPOINT_PASSIVE, nullptr, nullptr);
        if (result != SQLITE_OK && result != SQLITE_BUSY) {
            sqlite::fail(connection_.get(), "what stands beside the file");
        }
    }
    bool has_tables() {
        Statement tables(connection_.get(), "SELECT count(*) FROM sqlite_schema");
        return tables.step() && tables.number(0) != 0;
    }

    std::string path_;
    FileLock lock_;
    // Held open, so that the last reader or writer that closes does not make a checkpoint.
    ConnectionPointer connection_;
};

} // namespace

std::unique_ptr<Database> open_sqlite(const std::string &path) {
    return std::make_unique<Sqlite>(path);
}

} // namespace gateway
