// Reads the log in a file of SQLite.
#include "log/sqlite.h"
#include "log/sqlite_statement.h"

namespace gateway::sqlite {

namespace {

Entry read_entry(const Statement &row) {
    Entry entry;
    entry.place = row.number(0);
    entry.term = row.number(1);
    entry.moment = row.bytes(2);
    entry.received = row.bytes(3);
    entry.firm = row.text_or_null(4);
    entry.number = row.number_or_null(5);
    entry.connection = row.number_or_null(6);
    entry.line = row.bytes(7);
    entry.before = row.digest(8);
    entry.hash = row.digest(9);
    return entry;
}

ConnectionEvent read_connection(const Statement &row) {
    ConnectionEvent event;
    event.place = row.number(0);
    event.term = row.number(1);
    event.moment = row.bytes(2);
    event.event = row.bytes(3);
    event.entry = row.number(4);
    event.number = row.number_or_null(5);
    event.firm = row.text_or_null(6);
    event.address = row.bytes(7);
    event.certificate = row.text_or_null(8);
    event.why = row.text_or_null(9);
    event.left_out = row.number(10);
    event.before = row.digest(11);
    event.hash = row.digest(12);
    return event;
}

// Of what select_seal and select_checkpoint give.
Position read_position(const Statement &row) {
    return {row.number(0), row.place(1),  row.digest(2), row.number(3),
            row.digest(4), row.number(5), row.digest(6)};
}

class SqliteReader final : public LogReader {
  public:
    explicit SqliteReader(const std::string &path)
        : connection_(connect(path, SQLITE_OPEN_READONLY)),
          entries_(connection_.get(), select_entry("WHERE place >= ? ORDER BY place LIMIT ?")),
          last_(connection_.get(), select_entry("ORDER BY place DESC LIMIT 1")),
          events_(connection_.get(), select_connection("WHERE place >= ? ORDER BY place LIMIT ?")),
          last_connection_(connection_.get(), select_connection("ORDER BY place DESC LIMIT 1")),
          seals_(connection_.get(),
                 select_seal("WHERE seal.number >= ? ORDER BY seal.number LIMIT ?")),
          count_checkpoints_(connection_.get(), "SELECT count(*) FROM checkpoint"),
          last_checkpoint_(
              connection_.get(),
              select_checkpoint("zeroblob(64)", "ORDER BY checkpoint.number DESC LIMIT 1")),
          checkpoint_(connection_.get(),
                      select_checkpoint("zeroblob(64)", "WHERE checkpoint.number = ?")) {}

    std::vector<Entry> entries(std::uint32_t from, std::uint32_t limit) override {
        std::vector<Entry> all;
        entries_.bind(std::int64_t{from}).bind(std::int64_t{limit});
        while (entries_.step()) {
            all.push_back(read_entry(entries_));
        }
        return all;
    }

    std::optional<Entry> last_entry() override {
        std::optional<Entry> last;
        while (last_.step()) {
            last = read_entry(last_);
        }
        return last;
    }

    std::vector<ConnectionEvent> connection_events(std::uint32_t from,
                                                   std::uint32_t limit) override {
        std::vector<ConnectionEvent> all;
        events_.bind(std::int64_t{from}).bind(std::int64_t{limit});
        while (events_.step()) {
            all.push_back(read_connection(events_));
        }
        return all;
    }

    std::optional<ConnectionEvent> last_connection() override {
        std::optional<ConnectionEvent> last;
        while (last_connection_.step()) {
            last = read_connection(last_connection_);
        }
        return last;
    }

    std::vector<Seal> seals(std::uint32_t from, std::uint32_t limit) override {
        std::vector<Seal> all;
        seals_.bind(std::int64_t{from}).bind(std::int64_t{limit});
        while (seals_.step()) {
            all.push_back({read_position(seals_), seals_.digest(7), seals_.bytes(8)});
        }
        return all;
    }

    std::uint32_t count_checkpoints() override {
        std::uint32_t count = 0;
        while (count_checkpoints_.step()) {
            count = count_checkpoints_.number(0);
        }
        return count;
    }

    std::optional<Checkpoint> last_checkpoint() override { return checkpoint_by(last_checkpoint_); }

    std::optional<Checkpoint> checkpoint(std::uint32_t number) override {
        checkpoint_.bind(std::int64_t{number});
        return checkpoint_by(checkpoint_);
    }

  private:
    static std::optional<Checkpoint> checkpoint_by(Statement &rows) {
        std::optional<Checkpoint> found;
        while (rows.step()) {
            found = {rows.number(7), read_position(rows), rows.digest<Signature>(10),
                     rows.number(8) != 0, rows.digest<Signature>(9)};
        }
        return found;
    }

    ConnectionPointer connection_;
    Statement entries_;
    Statement last_;
    Statement events_;
    Statement last_connection_;
    Statement seals_;
    Statement count_checkpoints_;
    Statement last_checkpoint_;
    Statement checkpoint_;
};

} // namespace

std::unique_ptr<LogReader> read(const std::string &path) {
    return std::make_unique<SqliteReader>(path);
}

} // namespace gateway::sqlite
