#include "log/postgres_form.h"

#include "base/printable.h"
#include "log/database.h"

#include <array>
#include <map>
#include <stdexcept>
#include <string_view>
#include <vector>

#include <fmt/format.h>
#include <fmt/ranges.h>

namespace gateway {

namespace {

// What a schema has, and how that is made, as the server writes it.
using Parts = std::map<std::string, std::string>;

struct Table {
    std::string_view name;
    std::string_view columns;
    std::string_view key; // none where it is empty
};

constexpr std::array tables{
    Table{"form", "number integer NOT NULL", ""},
    Table{"entry",
          "place integer NOT NULL, term integer NOT NULL, moment text NOT NULL, received text NOT "
          "NULL, firm text, number integer, connection integer, line bytea NOT NULL, before bytea "
          "NOT NULL, hash bytea NOT NULL",
          "place"},
    Table{"connection",
          "place integer NOT NULL, term integer NOT NULL, moment text NOT NULL, event text NOT "
          "NULL, entry integer NOT NULL, number integer, firm text, address text NOT NULL, "
          "certificate text, why text, left_out integer NOT NULL, before bytea NOT NULL, hash "
          "bytea NOT NULL",
          "place"},
    Table{"sent",
          "firm text NOT NULL, number integer NOT NULL, place integer NOT NULL, bytes bytea NOT "
          "NULL, told text",
          "firm, number"},
    Table{"seal",
          "number integer NOT NULL, term integer NOT NULL, place integer NOT NULL, event integer "
          "NOT NULL, notes bytea NOT NULL, hash bytea NOT NULL, mac bytea NOT NULL",
          "number"},
    Table{"checkpoint",
          "number integer NOT NULL, term integer NOT NULL, place integer NOT NULL, event integer "
          "NOT NULL, seal integer NOT NULL, is_end integer NOT NULL, signature bytea NOT NULL",
          "number"},
    Table{"speaker",
          "one integer NOT NULL, term integer NOT NULL, gateway text NOT NULL, backend integer NOT "
          "NULL, began timestamp with time zone NOT NULL, seen timestamp with time zone NOT NULL",
          "one"},
};

struct Function {
    std::string_view name;
    std::string_view arguments;
    std::string_view gives;
    std::string_view settings; // a space behind them
};

constexpr std::array functions{
    Function{"take_over", "name text",
             "TABLE(new_term integer, old_backend integer, old_began timestamp with time zone)",
             "lock_timeout=1s "},
    Function{"speak", "mine integer", "void", ""},
    Function{"speak_and_be_seen", "mine integer", "void", ""},
    Function{"refuse_other_terms", "", "trigger", ""},
};

constexpr std::array with_terms{"entry", "connection", "seal"};

// What stands between the dollar signs behind its name in terms.sql.
std::string_view body_of(std::string_view function) {
    const std::string_view text = terms_text();
    constexpr std::string_view quotes = "$$";
    const std::size_t at = text.find(fmt::format("CREATE FUNCTION {}(", function));
    const std::size_t begin = text.find(quotes, at) + quotes.size();
    return text.substr(begin, text.find(quotes, begin) - begin);
}

Parts made_by_gateways() {
    Parts parts;
    for (const Table &table : tables) {
        parts[fmt::format("table {}", table.name)] = table.columns;
        if (!table.key.empty()) {
            parts[fmt::format("constraint {0}_pkey of {0}", table.name)] =
                fmt::format("PRIMARY KEY ({})", table.key);
        }
    }
    parts["constraint speaker_one_check of speaker"] = "CHECK ((one = 1))";
    for (const std::string_view table : with_terms) {
        parts[fmt::format("trigger one_term of {}", table)] =
            fmt::format("CREATE TRIGGER one_term AFTER INSERT ON {} REFERENCING NEW TABLE AS added "
                        "FOR EACH STATEMENT EXECUTE FUNCTION refuse_other_terms()",
                        table);
    }
    for (const Function &function : functions) {
        parts[fmt::format("function {}({})", function.name, function.arguments)] =
            fmt::format("RETURNS {} LANGUAGE plpgsql {}AS {}", function.gives, function.settings,
                        body_of(function.name));
    }
    return parts;
}

// $1 is the schema, and $2 the names of the tables. What a gateway does not make has no more than
// its name. An index that checks nothing and computes nothing changes no row, nor does one that
// checks what the key does (REINDEX CONCURRENTLY makes such, and leaves it where it fails), or a
// table or a view of another name. Each function is the server's own by its full name: the schema
// may have one that is called so, and fits better.
constexpr const char *parts_of_schema = R"sql(
WITH schema AS (SELECT oid AS place FROM pg_namespace WHERE nspname = $1),
own AS (SELECT oid, relname, relkind, relpersistence, relrowsecurity FROM pg_class, schema
    WHERE relnamespace = place AND relname = ANY (pg_catalog.string_to_array($2, ' ')))
SELECT pg_catalog.format('table %s', relname), pg_catalog.concat(
        CASE WHEN relkind <> 'r' THEN pg_catalog.format('no table (%s): ', relkind) END,
        CASE WHEN relpersistence <> 'p' THEN 'unlogged: ' END,
        CASE WHEN relrowsecurity THEN 'with row security: ' END,
        (SELECT pg_catalog.string_agg(pg_catalog.concat(
                attname, ' ', pg_catalog.format_type(atttypid, atttypmod),
                CASE WHEN attnotnull THEN ' NOT NULL' END,
                ' DEFAULT ' || pg_catalog.pg_get_expr(adbin, adrelid),
                CASE WHEN attidentity <> '' THEN ' IDENTITY' END), ', ' ORDER BY attnum)
            FROM pg_attribute LEFT JOIN pg_attrdef ON adrelid = attrelid AND adnum = attnum
            WHERE attrelid = own.oid AND attnum > 0 AND NOT attisdropped))
    FROM own
UNION ALL
SELECT pg_catalog.format('constraint %s of %s', conname, relname),
        pg_catalog.pg_get_constraintdef(pg_constraint.oid)
    FROM pg_constraint JOIN own ON conrelid = own.oid WHERE contype <> 'n'
UNION ALL
SELECT pg_catalog.format('trigger %s of %s', tgname, relname), pg_catalog.concat(
        CASE WHEN tgenabled <> 'O' THEN pg_catalog.format('not enabled (%s): ', tgenabled) END,
        pg_catalog.pg_get_triggerdef(pg_trigger.oid, true))
    FROM pg_trigger JOIN own ON tgrelid = own.oid WHERE NOT tgisinternal
UNION ALL
SELECT pg_catalog.format('function %s(%s)', proname,
        pg_catalog.pg_get_function_identity_arguments(pg_proc.oid)), pg_catalog.concat(
        CASE WHEN prokind <> 'f' THEN pg_catalog.format('no function (%s): ', prokind) END,
        'RETURNS ', pg_catalog.pg_get_function_result(pg_proc.oid), ' LANGUAGE ', lanname, ' ',
        CASE WHEN provolatile <> 'v' THEN pg_catalog.format('not volatile (%s) ', provolatile) END,
        CASE WHEN prosecdef THEN 'SECURITY DEFINER ' END,
        CASE WHEN proisstrict THEN 'STRICT ' END,
        pg_catalog.array_to_string(proconfig, ' ') || ' ', 'AS ', prosrc)
    FROM pg_proc JOIN pg_language ON pg_language.oid = prolang JOIN schema ON pronamespace = place
UNION ALL
SELECT pg_catalog.format('operator %s', oprname), ''
    FROM pg_operator JOIN schema ON oprnamespace = place
UNION ALL
SELECT pg_catalog.format('rule %s of %s', rulename, relname), ''
    FROM pg_rewrite JOIN own ON ev_class = own.oid WHERE relkind = 'r'
UNION ALL
SELECT pg_catalog.format('policy %s of %s', polname, relname), ''
    FROM pg_policy JOIN own ON polrelid = own.oid
UNION ALL
SELECT pg_catalog.format('child %s of %s', inhrelid::regclass, relname), ''
    FROM pg_inherits JOIN own ON inhparent = own.oid
UNION ALL
SELECT pg_catalog.format('parent %s of %s', inhparent::regclass, relname), ''
    FROM pg_inherits JOIN own ON inhrelid = own.oid
UNION ALL
SELECT pg_catalog.format('index %s of %s', indexrelid::regclass, relname), ''
    FROM pg_index JOIN own ON indrelid = own.oid
    WHERE NOT indisprimary AND (indisunique OR indexprs IS NOT NULL OR indpred IS NOT NULL)
        AND NOT (indexprs IS NULL AND indpred IS NULL AND EXISTS (SELECT FROM pg_index AS key
            WHERE key.indrelid = own.oid AND key.indisprimary
            AND key.indnkeyatts = pg_index.indnkeyatts
            AND key.indkey::text = pg_index.indkey::text AND key.indclass = pg_index.indclass
            AND key.indcollation = pg_index.indcollation))
)sql";

Parts found_in(pqxx::transaction_base &work, const std::string &schema) {
    std::string names;
    for (const Table &table : tables) {
        names.append(names.empty() ? "" : " ").append(table.name);
    }
    Parts parts;
    for (const pqxx::row &row : work.exec_params(parts_of_schema, schema, names)) {
        parts[row[0].as<std::string>()] = row[1].as<std::string>();
    }
    return parts;
}

// Somebody else may have chosen the names.
std::string words_of(const std::string &text) {
    constexpr std::size_t longest = 160;
    return printable(text, longest);
}

std::vector<std::string> differences(const Parts &made, const Parts &found) {
    std::vector<std::string> all;
    for (const auto &[part, how] : made) {
        const auto is = found.find(part);
        if (is == found.end()) {
            all.push_back(fmt::format("{} is not there", words_of(part)));
        } else if (is->second != how) {
            all.push_back(fmt::format("{} is another: {}", words_of(part), words_of(is->second)));
        }
    }
    for (const auto &[part, how] : found) {
        if (!made.contains(part)) {
            all.push_back(fmt::format("{} is none of a gateway's", words_of(part)));
        }
    }
    return all;
}

} // namespace

void check_form_of_tables(pqxx::transaction_base &work, const std::string &schema) {
    constexpr std::size_t most_told = 5;
    std::vector<std::string> others = differences(made_by_gateways(), found_in(work, schema));
    if (others.empty()) {
        return;
    }
    const std::size_t count = others.size();
    if (count > most_told) {
        others.resize(most_told);
        others.push_back(fmt::format("and {} more", count - most_told));
    }
    throw std::runtime_error(fmt::format("{} is not as gateways make it: {}. Who may change it is "
                                         "its owner, or PostgreSQL's superuser",
                                         schema, fmt::join(others, "; ")));
}

} // namespace gateway
