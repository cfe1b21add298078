// Holds the tables of a schema of PostgreSQL against what schema.sql and terms.sql make.
#ifndef GATEWAY_LOG_POSTGRES_FORM_H
#define GATEWAY_LOG_POSTGRES_FORM_H

#include <string>

#include <pqxx/pqxx>

namespace gateway {

// The schema's owner may have put another function there, taken a key away, or left a trigger, a
// rule or a view: then two gateways could speak, or a row would change as it is written. Throws
// std::runtime_error that names what is otherwise. The tables are those that the search path finds.
// What the owner does later is not seen.
void check_form_of_tables(pqxx::transaction_base &work, const std::string &schema);

} // namespace gateway

#endif
