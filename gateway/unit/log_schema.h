// The schema of a test's log in PostgreSQL.
#ifndef GATEWAY_TESTS_LOG_SCHEMA_H
#define GATEWAY_TESTS_LOG_SCHEMA_H

#include <string>
#include <string_view>

#include <fmt/format.h>
#include <pqxx/pqxx>
#include <unistd.h>

namespace gateway::tests {

// A name that no other process has, and no other number of this one. It is that of a day's log, as
// the owner of the logs wants it where they have one (install/hosts/config/database.sql): of a day
// that is long over.
inline std::string log_schema(std::string_view test, unsigned number = 0) {
    return fmt::format("{}_{}_{}_20000101", test, ::getpid(), number);
}

// Drops it where this role may. What the owner of the logs made stays with the database.
inline void drop_if_own(pqxx::connection &connection, const std::string &schema) {
    pqxx::nontransaction work(connection);
    const pqxx::result own = work.exec_params("SELECT FROM pg_namespace WHERE nspname = $1 "
                                              "AND pg_has_role(nspowner, 'USAGE')",
                                              schema);
    if (!own.empty()) {
        work.exec("DROP SCHEMA " + work.quote_name(schema) + " CASCADE");
    }
}

} // namespace gateway::tests

#endif
