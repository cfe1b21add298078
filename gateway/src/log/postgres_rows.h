// Puts the rows of a batch into the tables of PostgreSQL.
#ifndef GATEWAY_LOG_POSTGRES_ROWS_H
#define GATEWAY_LOG_POSTGRES_ROWS_H

#include "log/database.h"

#include <array>
#include <cstddef>
#include <optional>
#include <string>
#include <string_view>
#include <type_traits>

#include <pqxx/pqxx>

namespace gateway {

// The text of bytes as PostgreSQL reads them.
std::string bytea(std::string_view bytes);
template <std::size_t Size> std::string bytea(const std::array<unsigned char, Size> &digest) {
    return bytea({reinterpret_cast<const char *>(digest.data()), digest.size()});
}

// A column of a SELECT: fails where this does not hold of what was put into a table.
std::string required(std::string_view table, std::string_view holds);

// Once for each connection.
void prepare_rows(pqxx::nontransaction &work, pqxx::connection_base &connection);
// All but seals and checkpoints.
void put_rows(pqxx::work &work, const Batch &batch);

// Statements that the server is given at once, and answers at once: each way to it and back keeps
// every answer waiting.
class Statements {
  public:
    explicit Statements(pqxx::transaction_base &work) : work_(work) {}

    // Without its semicolon.
    void add(std::string_view statement) { text_.append(statement).append("; "); }
    // One that was prepared, with these values.
    template <typename... Values> void call(std::string_view name, const Values &...values) {
        add(std::string("EXECUTE ").append(name).append(row(values...)));
    }
    // Whether a batch is so small that its rows may be put by such statements: those of many are
    // copied sooner.
    static bool has_room_for(const Batch &batch);
    // What has_room_for() looked at.
    void put(const Batch &batch);
    // Once all rows of a batch were put: fails, and the transaction with it, where one of them is
    // not there, as where a trigger or a rule drops it. The server says no word of that.
    void require(const Batch &batch);
    void run() { work_.exec(text_); }

  private:
    void require_sent(const std::vector<Sent> &sent);

    template <typename First, typename... Rest>
    std::string row(const First &first, const Rest &...rest) {
        std::string text = "(" + value(first);
        (text.append(", ").append(value(rest)), ...);
        return text + ")";
    }
    std::string value(const std::string &text) const { return work_.quote(text); }
    template <typename Value> std::string value(const std::optional<Value> &given) const {
        return given ? value(*given) : "NULL";
    }
    template <typename Number>
    requires std::is_integral_v<Number> std::string value(Number number)
    const { return std::to_string(number); }

    pqxx::transaction_base &work_;
    std::string text_;
};

} // namespace gateway

#endif
