// The least that a log in PostgreSQL takes: what bench/standby.sh and bench/firms.sh compare with.
//
//     bare insert CONNECTION COUNT
//         inserts rows as wide as an entry, each in a commit of its own. Prints the median and the
//         99th percentile of the time of one, in microseconds
//     bare copy CONNECTION SCHEMA
//         copies the entries of a gateway's log into a table of the same columns, in the batches in
//         which the gateway committed them, one after the other. Prints how many a second, and the
//         99th percentile of a batch, in microseconds
#include <libpq-fe.h>

#include <algorithm>
#include <chrono>
#include <cstdio>
#include <iostream>
#include <memory>
#include <stdexcept>
#include <string>
#include <vector>

namespace {

using Clock = std::chrono::steady_clock;

struct Clear {
    void operator()(PGresult *result) const { PQclear(result); }
    void operator()(PGconn *connection) const { PQfinish(connection); }
};
using Result = std::unique_ptr<PGresult, Clear>;

class Connection {
  public:
    explicit Connection(const char *words) : connection_(PQconnectdb(words)) {
        if (PQstatus(connection_.get()) != CONNECTION_OK)
            throw std::runtime_error(PQerrorMessage(connection_.get()));
    }
    PGconn *get() const { return connection_.get(); }
    Result done(PGresult *result) const {
        Result own(result);
        const ExecStatusType status = PQresultStatus(result);
        if (status != PGRES_COMMAND_OK && status != PGRES_TUPLES_OK && status != PGRES_COPY_IN &&
            status != PGRES_COPY_OUT)
            throw std::runtime_error(PQerrorMessage(connection_.get()));
        return own;
    }
    Result run(const std::string &text) const { return done(PQexec(get(), text.c_str())); }

  private:
    std::unique_ptr<PGconn, Clear> connection_;
};

double microseconds_since(Clock::time_point began) {
    return std::chrono::duration<double, std::micro>(Clock::now() - began).count();
}

double part(std::vector<double> &times, std::size_t hundredths) {
    std::sort(times.begin(), times.end());
    return times.at(std::min(times.size() - 1, times.size() * hundredths / 100));
}

void insert(const char *words, std::size_t count) {
    const Connection connection(words);
    connection.run("SET client_min_messages TO warning; DROP TABLE IF EXISTS bare; "
                   "CREATE TABLE bare (place INTEGER PRIMARY KEY, line BYTEA NOT NULL)");
    connection.done(
        PQprepare(connection.get(), "put", "INSERT INTO bare VALUES ($1, $2)", 2, nullptr));
    const std::string line(640, 'x');
    std::vector<double> times;
    for (std::size_t at = 0; at < count; ++at) {
        const std::string place = std::to_string(at);
        const char *values[] = {place.c_str(), line.data()};
        const int sizes[] = {0, static_cast<int>(line.size())};
        const int forms[] = {0, 1};
        const auto began = Clock::now();
        connection.done(PQexecPrepared(connection.get(), "put", 2, values, sizes, forms, 0));
        times.push_back(microseconds_since(began));
    }
    std::printf("%.1f %.1f\n", part(times, 50), part(times, 99));
}

// The texts of rows as COPY takes them, by batches.
std::vector<std::string> batches(const Connection &connection) {
    const Result ends =
        connection.run("SELECT DISTINCT place FROM seal WHERE place >= 0 ORDER BY 1");
    connection.run("COPY (SELECT * FROM entry ORDER BY place) TO STDOUT");
    std::vector<std::string> texts(1);
    int at = 0;
    long place = 0;
    char *line = nullptr;
    for (int size = PQgetCopyData(connection.get(), &line, 0); size > 0;
         size = PQgetCopyData(connection.get(), &line, 0)) {
        texts.back().append(line, static_cast<std::size_t>(size));
        PQfreemem(line);
        if (at < PQntuples(ends.get()) && place == std::stol(PQgetvalue(ends.get(), at, 0))) {
            texts.emplace_back();
            ++at;
        }
        ++place;
    }
    connection.done(PQgetResult(connection.get()));
    Result(PQgetResult(connection.get()));
    if (texts.back().empty())
        texts.pop_back();
    return texts;
}

void put(const Connection &connection, const std::string &rows) {
    connection.run("BEGIN");
    connection.run("COPY bare_entry FROM STDIN");
    if (PQputCopyData(connection.get(), rows.data(), static_cast<int>(rows.size())) != 1 ||
        PQputCopyEnd(connection.get(), nullptr) != 1)
        throw std::runtime_error(PQerrorMessage(connection.get()));
    connection.done(PQgetResult(connection.get()));
    Result(PQgetResult(connection.get()));
    connection.run("COMMIT");
}

void copy(const char *words, const std::string &schema) {
    const Connection connection(words);
    connection.run("SET client_min_messages TO warning; SET search_path TO \"" + schema + "\"");
    const std::vector<std::string> rows = batches(connection);
    connection.run(
        "DROP TABLE IF EXISTS bare_entry; CREATE TABLE bare_entry (LIKE entry INCLUDING ALL)");
    std::size_t count = 0;
    std::vector<double> times;
    const auto began = Clock::now();
    for (const std::string &batch : rows) {
        const auto begin = Clock::now();
        put(connection, batch);
        times.push_back(microseconds_since(begin));
        count += static_cast<std::size_t>(std::count(batch.begin(), batch.end(), '\n'));
    }
    const double seconds = microseconds_since(began) / 1e6;
    std::printf("%.0f %.1f\n", static_cast<double>(count) / seconds, part(times, 99));
}

} // namespace

int main(int count, char **words) {
    const std::string role = count == 4 ? words[1] : "";
    try {
        if (role == "insert")
            insert(words[2], std::stoul(words[3]));
        else if (role == "copy")
            copy(words[2], words[3]);
        else
            throw std::runtime_error("usage: see the head of bare.cpp");
        return 0;
    } catch (const std::exception &fault) {
        std::cerr << "bare: " << fault.what() << std::endl;
        return 1;
    }
}
