// Days of a log for its tests.
#ifndef GATEWAY_TESTS_LOG_DAYS_H
#define GATEWAY_TESTS_LOG_DAYS_H

#include "check.h"
#include "log/log.h"

#include <filesystem>
#include <iostream>

namespace gateway::tests {

inline Entry begin_day(Database &database) {
    Entry first;
    first.term = database.take_over().value();
    first.moment = "00:00:00.000";
    first.line = line_of({"program 1", Digest{}, "version = 1\n", ""});
    first.hash = hash_of(first);
    Batch batch;
    batch.entries.push_back(first);
    database.writer()->commit(batch);
    return first;
}

// A message of this number on the first connection.
inline Log::Came came(std::uint32_t number) {
    return {number, 1, std::chrono::system_clock::now()};
}

// A log after the last entry of a day.
struct DayThatGoesOn {
    explicit DayThatGoesOn(Database &database)
        : start(start_of(database)), last(start.last.place),
          log(database, feed, clock, metrics, Log::Start(start),
              [](const std::string &cause) { std::cerr << cause << '\n'; }) {}

    static Log::Start start_of(Database &database) {
        Log::Start start;
        start.last = database.reader()->last_entry().value();
        start.connections = connections_in(*database.reader());
        start.term = start.last.term;
        return start;
    }

    const Log::Start start;
    const std::uint32_t last;
    DayClock clock{today()};
    Metrics metrics;
    EntryFeed feed{last};
    Log log;
};

inline std::string fresh(const std::filesystem::path &file) {
    for (const char *suffix : {"", "-wal", "-shm", ".lock"}) {
        std::filesystem::remove(file.string() + suffix);
    }
    return file.string();
}

} // namespace gateway::tests

#endif
