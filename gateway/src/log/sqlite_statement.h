// SQLite's connections and statements, closed with their owners.
#ifndef GATEWAY_LOG_SQLITE_STATEMENT_H
#define GATEWAY_LOG_SQLITE_STATEMENT_H

#include "log/records.h"

#include <cstring>
#include <limits>
#include <memory>
#include <optional>
#include <stdexcept>
#include <string>
#include <string_view>

#include <fmt/format.h>
#include <sqlite3.h>

namespace gateway::sqlite {

struct CloseConnection {
    void operator()(sqlite3 *connection) const { sqlite3_close_v2(connection); }
};
using ConnectionPointer = std::unique_ptr<sqlite3, CloseConnection>;

struct FinalizeStatement {
    void operator()(sqlite3_stmt *statement) const { sqlite3_finalize(statement); }
};

// Of several venues each has its own.
inline std::string_view file_of(sqlite3 *connection) {
    const char *file = sqlite3_db_filename(connection, "main");
    return file == nullptr ? "" : file;
}

// Throws std::runtime_error that names the file.
[[noreturn]] inline void fail(sqlite3 *connection, std::string_view what) {
    throw std::runtime_error(
        fmt::format("SQLite, {}: {}: {}", file_of(connection), what, sqlite3_errmsg(connection)));
}

// A prepared statement: parameters are bound in order, columns read by place.
class Statement {
  public:
    Statement(sqlite3 *connection, std::string_view text) : connection_(connection), text_(text) {
        sqlite3_stmt *statement = nullptr;
        if (sqlite3_prepare_v3(connection, text.data(), static_cast<int>(text.size()),
                               SQLITE_PREPARE_PERSISTENT, &statement, nullptr) != SQLITE_OK) {
            fail(connection, text);
        }
        statement_.reset(statement);
    }

    Statement &bind(std::int64_t value) {
        return bound(sqlite3_bind_int64(statement_.get(), ++parameters_, value));
    }
    Statement &bind(const std::optional<std::uint32_t> &value) {
        return value ? bind(std::int64_t{*value}) : bind_null();
    }
    Statement &bind(const std::string &text) {
        return bound(sqlite3_bind_text64(statement_.get(), ++parameters_, text.data(), text.size(),
                                         SQLITE_STATIC, SQLITE_UTF8));
    }
    Statement &bind(const std::optional<std::string> &text) {
        return text ? bind(*text) : bind_null();
    }
    Statement &bind_bytes(std::string_view bytes) {
        return bound(sqlite3_bind_blob64(statement_.get(), ++parameters_, bytes.data(),
                                         bytes.size(), SQLITE_STATIC));
    }
    template <std::size_t Size>
    Statement &bind_bytes(const std::array<unsigned char, Size> &digest) {
        return bound(sqlite3_bind_blob64(statement_.get(), ++parameters_, digest.data(),
                                         digest.size(), SQLITE_STATIC));
    }

    // Whether there is a row.
    bool step() {
        const int result = sqlite3_step(statement_.get());
        if (result == SQLITE_ROW) {
            return true;
        }
        if (result != SQLITE_DONE) {
            fail(connection_, text_);
        }
        reset();
        return false;
    }

    // The end of a statement of which no row, or no further one, is wanted.
    void run() {
        while (step()) {
        }
    }
    // The end of an INSERT of one row. Throws where SQLite has put none there, and calls that done.
    void put_row() {
        run();
        if (sqlite3_changes(connection_) != 1) {
            throw std::runtime_error(
                fmt::format("SQLite, {}: no row was put there: {}", file_of(connection_), text_));
        }
    }
    // Whether SQLite has prepared this anew since it was asked last. It does where a definition may
    // have changed.
    bool was_prepared_anew() {
        return sqlite3_stmt_status(statement_.get(), SQLITE_STMTSTATUS_REPREPARE, 1) != 0;
    }
    void reset() {
        sqlite3_reset(statement_.get());
        parameters_ = 0;
    }

    bool is_null(int column) const {
        return sqlite3_column_type(statement_.get(), column) == SQLITE_NULL;
    }
    // Throws std::runtime_error that names table and column where something else stands there.
    std::uint32_t number(int column) const {
        return within(column, 0, std::numeric_limits<std::uint32_t>::max());
    }
    // What column_of_place() made of a place.
    std::uint32_t place(int column) const {
        return within(column, column_of_place(before_day), std::int64_t{before_day} - 1);
    }
    std::optional<std::uint32_t> number_or_null(int column) const {
        return is_null(column) ? std::nullopt : std::optional(number(column));
    }
    std::optional<std::string> text_or_null(int column) const {
        return is_null(column) ? std::nullopt : std::optional(bytes(column));
    }
    std::string bytes(int column) const {
        const void *data = sqlite3_column_blob(statement_.get(), column);
        const int size = sqlite3_column_bytes(statement_.get(), column);
        return data == nullptr
                   ? std::string()
                   : std::string(static_cast<const char *>(data), static_cast<std::size_t>(size));
    }
    // Zeros where it has not so many bytes.
    template <typename Bytes = Digest> Bytes digest(int column) const {
        const void *data = sqlite3_column_blob(statement_.get(), column);
        const int size = sqlite3_column_bytes(statement_.get(), column);
        Bytes digest{};
        if (data != nullptr && static_cast<std::size_t>(size) == digest.size()) {
            std::memcpy(digest.data(), data, digest.size());
        }
        return digest;
    }

  private:
    std::uint32_t within(int column, std::int64_t least, std::int64_t most) const {
        const bool is_number = sqlite3_column_type(statement_.get(), column) == SQLITE_INTEGER;
        const std::int64_t value = sqlite3_column_int64(statement_.get(), column);
        if (!is_number || value < least || value > most) {
            const char *table = sqlite3_column_table_name(statement_.get(), column);
            throw std::runtime_error(
                fmt::format("SQLite, {}: {}.{} has something else than a number from {} to {}",
                            file_of(connection_), table == nullptr ? "" : table,
                            sqlite3_column_name(statement_.get(), column), least, most));
        }
        return static_cast<std::uint32_t>(value);
    }
    Statement &bind_null() { return bound(sqlite3_bind_null(statement_.get(), ++parameters_)); }
    Statement &bound(int result) {
        if (result != SQLITE_OK) {
            fail(connection_, text_);
        }
        return *this;
    }

    sqlite3 *connection_;
    std::string text_;
    std::unique_ptr<sqlite3_stmt, FinalizeStatement> statement_;
    int parameters_ = 0;
};

// Whoever may write to the file may leave something there that is done later, when this process
// writes or reads: it is not done.
inline ConnectionPointer connect(const std::string &path, int flags) {
    sqlite3 *raw = nullptr;
    const int result = sqlite3_open_v2(path.c_str(), &raw, flags | SQLITE_OPEN_NOMUTEX, nullptr);
    ConnectionPointer connection(raw);
    if (result != SQLITE_OK) {
        throw std::runtime_error(fmt::format("SQLite, {}: {}", path,
                                             raw == nullptr ? "no memory" : sqlite3_errmsg(raw)));
    }
    sqlite3_db_config(raw, SQLITE_DBCONFIG_ENABLE_TRIGGER, 0, nullptr);
    sqlite3_db_config(raw, SQLITE_DBCONFIG_ENABLE_VIEW, 0, nullptr);
    sqlite3_extended_result_codes(raw, 1);
    sqlite3_busy_timeout(raw, 10000);
    return connection;
}

inline void execute(sqlite3 *connection, const char *text) {
    if (sqlite3_exec(connection, text, nullptr, nullptr, nullptr) != SQLITE_OK) {
        fail(connection, text);
    }
}

} // namespace gateway::sqlite

#endif
