#include "log/postgres_rows.h"

#include "common/frame.h"

#include <algorithm>
#include <limits>
#include <map>
#include <tuple>
#include <vector>

#include <fmt/format.h>
#include <pqxx/stream_to>

namespace gateway {

namespace {

// Puts the rows of a batch into a table by COPY: one round trip however many they are.
class Rows {
  public:
    Rows(pqxx::transaction_base &work, const std::string &table,
         const std::vector<std::string> &columns)
        : stream_(work, table, columns) {}

    template <typename... Values> void add(const Values &...values) {
        stream_ << std::make_tuple(values...);
    }
    void end() { stream_.complete(); }

  private:
    pqxx::stream_to stream_;
};

// The text of a number that may be absent, for as long as it lives.
class Nullable {
  public:
    explicit Nullable(const std::optional<std::uint32_t> &number)
        : text_(number ? std::to_string(*number) : ""), null_(!number) {}
    explicit Nullable(const std::optional<std::string> &text)
        : text_(text.value_or("")), null_(!text) {}

    const char *text() const { return null_ ? nullptr : text_.c_str(); }

  private:
    std::string text_;
    bool null_;
};

void add_entries(pqxx::work &work, const std::vector<Entry> &entries) {
    if (entries.empty()) {
        return;
    }
    Rows rows(work, "entry",
              {"place", "term", "moment", "received", "firm", "number", "connection", "line",
               "before", "hash"});
    for (const Entry &entry : entries) {
        const Nullable firm(entry.firm);
        const Nullable number(entry.number);
        const Nullable connection(entry.connection);
        rows.add(entry.place, entry.term, entry.moment, entry.received, firm.text(), number.text(),
                 connection.text(), bytea(entry.line), bytea(entry.before), bytea(entry.hash));
    }
    rows.end();
}

void add_connections(pqxx::work &work, const std::vector<ConnectionEvent> &events) {
    if (events.empty()) {
        return;
    }
    Rows rows(work, "connection",
              {"place", "term", "moment", "event", "entry", "number", "firm", "address",
               "certificate", "why", "left_out", "before", "hash"});
    for (const ConnectionEvent &event : events) {
        const Nullable number(event.number);
        const Nullable firm(event.firm);
        const Nullable certificate(event.certificate);
        const Nullable why(event.why);
        rows.add(event.place, event.term, event.moment, event.event, event.entry, number.text(),
                 firm.text(), event.address, certificate.text(), why.text(), event.left_out,
                 bytea(event.before), bytea(event.hash));
    }
    rows.end();
}

void add_sent(pqxx::work &work, const std::vector<Sent> &sent) {
    if (sent.empty()) {
        return;
    }
    Rows rows(work, "sent", {"firm", "number", "place", "bytes", "told"});
    for (const Sent &row : sent) {
        const Nullable told(row.told);
        rows.add(row.firm, row.number, row.place, bytea(row.bytes), told.text());
    }
    rows.end();
}

// What is there stays.
void add_sent_again(pqxx::work &work, const std::vector<Sent> &sent) {
    for (const Sent &row : sent) {
        const Nullable told(row.told);
        work.exec_prepared("sent again", row.firm, row.number, row.place, bytea(row.bytes),
                           told.text());
    }
}

} // namespace

std::string bytea(std::string_view bytes) {
    std::string text = "\\x";
    append_hexadecimal(text, bytes);
    return text;
}

// No statement of SQL fails with words of one's own, but for one that reads them as a number.
std::string required(std::string_view table, std::string_view holds) {
    return fmt::format("CAST(CASE WHEN {} THEN '1' ELSE 'the table {} has fewer rows than were put "
                       "there: a trigger or a rule of it drops them' END AS INTEGER)",
                       holds, table);
}

void prepare_rows(pqxx::nontransaction &work, pqxx::connection_base &connection) {
    // What was put is looked for by its keys, also where a table is short at first. What has no
    // key, as a term has none, costs the planner so much then that the server would compile it,
    // which takes many times as long as a commit does.
    work.exec("SET enable_seqscan TO off");
    work.exec("SET jit TO off");
    for (const char *table : {"entry", "connection"}) {
        work.exec(fmt::format("PREPARE require_{0} (INTEGER, INTEGER, BIGINT) AS SELECT {1} FROM "
                              "{0} WHERE place BETWEEN $1 AND $2",
                              table, required(table, "count(*) = $3")));
    }
    work.exec(fmt::format("PREPARE require_sent (TEXT[], INTEGER[], INTEGER[], BIGINT[]) AS SELECT "
                          "{} FROM unnest($1, $2, $3, $4) AS put (firm, first, last, rows), "
                          "LATERAL (SELECT count(*) AS rows FROM sent WHERE sent.firm = put.firm "
                          "AND sent.number BETWEEN put.first AND put.last) AS there",
                          required("sent", "bool_and(there.rows >= put.rows)")));
    // By a statement of their own, so that a statement of SQL may name them.
    work.exec(fmt::format("PREPARE put_entry AS INSERT INTO entry ({}) VALUES ($1, $2, $3, $4, $5, "
                          "$6, $7, $8, $9, $10)",
                          entry_columns));
    work.exec(fmt::format("PREPARE put_sent AS INSERT INTO sent ({}) VALUES ($1, $2, $3, $4, $5)",
                          sent_columns));
    connection.prepare("sent again",
                       fmt::format("INSERT INTO sent ({}) VALUES ($1, $2, $3, $4, $5) ON CONFLICT "
                                   "DO NOTHING",
                                   sent_columns));
}

bool Statements::has_room_for(const Batch &batch) {
    constexpr std::size_t most_entries = 4;
    constexpr std::size_t most_rows = 32;
    return batch.entries.size() <= most_entries && batch.sent.size() <= most_rows &&
           !batch.is_repeated && batch.connections.empty() && batch.checkpoints.empty();
}

void Statements::put(const Batch &batch) {
    for (const Entry &entry : batch.entries) {
        call("put_entry", entry.place, entry.term, entry.moment, entry.received, entry.firm,
             entry.number, entry.connection, bytea(entry.line), bytea(entry.before),
             bytea(entry.hash));
    }
    for (const Sent &row : batch.sent) {
        call("put_sent", row.firm, row.number, row.place, bytea(row.bytes), row.told);
    }
}

void Statements::require(const Batch &batch) {
    if (!batch.entries.empty()) {
        call("require_entry", batch.entries.front().place, batch.entries.back().place,
             batch.entries.size());
    }
    if (!batch.connections.empty()) {
        call("require_connection", batch.connections.front().place, batch.connections.back().place,
             batch.connections.size());
    }
    require_sent(batch.sent);
}

// Of each firm there is nothing between the numbers of a batch but what is in that batch.
void Statements::require_sent(const std::vector<Sent> &sent) {
    struct Numbers {
        std::uint32_t first = std::numeric_limits<std::uint32_t>::max();
        std::uint32_t last = 0;
        std::size_t count = 0;
    };
    std::map<std::string, Numbers> put;
    for (const Sent &row : sent) {
        Numbers &numbers = put[row.firm];
        numbers.first = std::min(numbers.first, row.number);
        numbers.last = std::max(numbers.last, row.number);
        ++numbers.count;
    }
    std::string firms;
    std::string first;
    std::string last;
    std::string counts;
    for (const auto &[firm, numbers] : put) {
        const char *comma = firms.empty() ? "" : ", ";
        firms.append(comma).append(value(firm));
        first.append(comma).append(value(numbers.first));
        last.append(comma).append(value(numbers.last));
        counts.append(comma).append(value(numbers.count));
    }
    if (!sent.empty()) {
        add(fmt::format("EXECUTE require_sent(ARRAY[{}], ARRAY[{}], ARRAY[{}], ARRAY[{}])", firms,
                        first, last, counts));
    }
}

void put_rows(pqxx::work &work, const Batch &batch) {
    add_connections(work, batch.connections);
    add_entries(work, batch.entries);
    if (batch.is_repeated) {
        add_sent_again(work, batch.sent);
    } else {
        add_sent(work, batch.sent);
    }
}

} // namespace gateway
