// Reads the log in a schema of PostgreSQL.
#include "log/postgres.h"

namespace gateway {

namespace {

std::string bytes_of(const pqxx::field &field) {
    return pqxx::binarystring(field).str();
}

// Zeros where it has not so many bytes.
template <typename Bytes = Digest> Bytes digest_of(const pqxx::field &field) {
    const std::string text = field.is_null() ? std::string() : bytes_of(field);
    Bytes digest{};
    if (text.size() == digest.size()) {
        std::copy(text.begin(), text.end(), digest.begin());
    }
    return digest;
}

std::optional<std::string> text_or_null(const pqxx::field &field) {
    return field.is_null() ? std::nullopt : std::optional(field.as<std::string>());
}

std::optional<std::uint32_t> number_or_null(const pqxx::field &field) {
    return field.is_null() ? std::nullopt : std::optional(number_of(field));
}

Entry read_entry(const pqxx::row &row) {
    Entry entry;
    entry.place = number_of(row[0]);
    entry.term = number_of(row[1]);
    entry.moment = row[2].as<std::string>();
    entry.received = row[3].as<std::string>();
    entry.firm = text_or_null(row[4]);
    entry.number = number_or_null(row[5]);
    entry.connection = number_or_null(row[6]);
    entry.line = bytes_of(row[7]);
    entry.before = digest_of(row[8]);
    entry.hash = digest_of(row[9]);
    return entry;
}

ConnectionEvent read_connection(const pqxx::row &row) {
    ConnectionEvent event;
    event.place = number_of(row[0]);
    event.term = number_of(row[1]);
    event.moment = row[2].as<std::string>();
    event.event = row[3].as<std::string>();
    event.entry = number_of(row[4]);
    event.number = number_or_null(row[5]);
    event.firm = text_or_null(row[6]);
    event.address = row[7].as<std::string>();
    event.certificate = text_or_null(row[8]);
    event.why = text_or_null(row[9]);
    event.left_out = number_of(row[10]);
    event.before = digest_of(row[11]);
    event.hash = digest_of(row[12]);
    return event;
}

// What column_of_place() made of a place.
std::uint32_t place_of(const pqxx::field &field) {
    return number_of(field, column_of_place(before_day), std::int64_t{before_day} - 1);
}

// Of what select_seal and select_checkpoint give.
Position read_position(const pqxx::row &row) {
    return {number_of(row[0]), place_of(row[1]),  digest_of(row[2]),
            number_of(row[3]), digest_of(row[4]), row[5].is_null() ? 0 : number_of(row[5]),
            digest_of(row[6])};
}

constexpr std::string_view no_signature = "decode(repeat('00', 64), 'hex')";

class PostgresReader final : public LogReader {
  public:
    PostgresReader(const std::string &connection, const std::string &schema)
        : connection_(connect(connection, schema)) {
        connection_->prepare("entries", select_entry("WHERE place >= $1 ORDER BY place LIMIT $2"));
        connection_->prepare("last", select_entry("ORDER BY place DESC LIMIT 1"));
        connection_->prepare("seals",
                             select_seal("WHERE seal.number >= $1 ORDER BY seal.number LIMIT $2"));
        connection_->prepare(
            "last checkpoint",
            select_checkpoint(no_signature, "ORDER BY checkpoint.number DESC LIMIT 1"));
        connection_->prepare("checkpoint",
                             select_checkpoint(no_signature, "WHERE checkpoint.number = $1"));
        connection_->prepare("connections",
                             select_connection("WHERE place >= $1 ORDER BY place LIMIT $2"));
        connection_->prepare("last connection", select_connection("ORDER BY place DESC LIMIT 1"));
    }

    std::vector<Entry> entries(std::uint32_t from, std::uint32_t limit) override {
        return told("entries", [&] {
            pqxx::nontransaction work(*connection_);
            std::vector<Entry> all;
            for (const pqxx::row &row : work.exec_prepared("entries", from, limit)) {
                all.push_back(read_entry(row));
            }
            return all;
        });
    }

    std::optional<Entry> last_entry() override {
        return told("the last entry", [&]() -> std::optional<Entry> {
            pqxx::nontransaction work(*connection_);
            const pqxx::result rows = work.exec_prepared("last");
            return rows.empty() ? std::nullopt : std::optional(read_entry(rows[0]));
        });
    }

    std::vector<ConnectionEvent> connection_events(std::uint32_t from,
                                                   std::uint32_t limit) override {
        return told("connections", [&] {
            pqxx::nontransaction work(*connection_);
            std::vector<ConnectionEvent> all;
            for (const pqxx::row &row : work.exec_prepared("connections", from, limit)) {
                all.push_back(read_connection(row));
            }
            return all;
        });
    }

    std::optional<ConnectionEvent> last_connection() override {
        return told("the last connection", [&]() -> std::optional<ConnectionEvent> {
            pqxx::nontransaction work(*connection_);
            const pqxx::result rows = work.exec_prepared("last connection");
            return rows.empty() ? std::nullopt : std::optional(read_connection(rows[0]));
        });
    }

    std::vector<Seal> seals(std::uint32_t from, std::uint32_t limit) override {
        return told("seals", [&] {
            pqxx::nontransaction work(*connection_);
            std::vector<Seal> all;
            for (const pqxx::row &row : work.exec_prepared("seals", from, limit)) {
                all.push_back({read_position(row), digest_of(row[7]), bytes_of(row[8])});
            }
            return all;
        });
    }

    std::uint32_t count_checkpoints() override {
        return told("checkpoints", [&] {
            pqxx::nontransaction work(*connection_);
            return number_of(work.exec("SELECT count(*) FROM checkpoint")[0][0]);
        });
    }

    std::optional<Checkpoint> last_checkpoint() override {
        return told("the last checkpoint", [&] {
            pqxx::nontransaction work(*connection_);
            return checkpoint_of(work.exec_prepared("last checkpoint"));
        });
    }

    std::optional<Checkpoint> checkpoint(std::uint32_t number) override {
        return told("a checkpoint", [&] {
            pqxx::nontransaction work(*connection_);
            return checkpoint_of(work.exec_prepared("checkpoint", number));
        });
    }

  private:
    static std::optional<Checkpoint> checkpoint_of(const pqxx::result &rows) {
        if (rows.empty()) {
            return std::nullopt;
        }
        const pqxx::row row = rows[0];
        return Checkpoint{number_of(row[7]), read_position(row), digest_of<Signature>(row[10]),
                          number_of(row[8]) != 0, digest_of<Signature>(row[9])};
    }

    std::unique_ptr<pqxx::connection> connection_;
};

} // namespace

std::unique_ptr<pqxx::connection> connect(const std::string &connection,
                                          const std::string &schema) {
    auto made = std::make_unique<pqxx::connection>(connection);
    pqxx::nontransaction work(*made);
    work.exec(fmt::format("SET search_path TO {}", work.quote_name(schema)));
    return made;
}

std::unique_ptr<LogReader> read_postgres(const std::string &connection, const std::string &schema) {
    return told("a reader", [&] { return std::make_unique<PostgresReader>(connection, schema); });
}

} // namespace gateway
