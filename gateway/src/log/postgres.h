// What the reader and the writer of PostgreSQL share.
#ifndef GATEWAY_LOG_POSTGRES_H
#define GATEWAY_LOG_POSTGRES_H

#include "log/database.h"

#include <cstdint>
#include <limits>
#include <memory>
#include <string>
#include <string_view>

#include <fmt/format.h>
#include <pqxx/pqxx>

namespace gateway {

// What libpqxx throws, with the place at which it was thrown.
template <typename Work> auto told(std::string_view what, Work work) {
    try {
        return work();
    } catch (const pqxx::failure &fault) {
        throw DatabaseAway(fmt::format("PostgreSQL, {}: {}", what, fault.what()));
    } catch (const pqxx::conversion_error &fault) {
        throw std::runtime_error(fmt::format("PostgreSQL, {}: {}", what, fault.what()));
    }
}

// Throws pqxx::conversion_error that names the column where something else stands there. (libpqxx
// cuts what does not fit into its type.)
inline std::uint32_t number_of(const pqxx::field &field, std::int64_t least = 0,
                               std::int64_t most = std::numeric_limits<std::uint32_t>::max()) {
    try {
        const auto number = field.as<std::int64_t>();
        if (number >= least && number <= most) {
            return static_cast<std::uint32_t>(number);
        }
    } catch (const pqxx::conversion_error &) {
    }
    throw pqxx::conversion_error(fmt::format(
        "column {} has something else than a number from {} to {}", field.name(), least, most));
}

// A connection whose tables are those of the schema.
std::unique_ptr<pqxx::connection> connect(const std::string &connection, const std::string &schema);

std::unique_ptr<LogReader> read_postgres(const std::string &connection, const std::string &schema);

} // namespace gateway

#endif
