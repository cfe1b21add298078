// How fast a log in PostgreSQL takes messages, and how many logs one database takes at once.
//
// usage: log_bench CONNECTION LOGS THREADS SECONDS
//
// It makes LOGS logs, each in a schema that it drops afterwards if its role may. In each of them
// THREADS threads append a message of 200 bytes and wait until it is committed, again and again. It
// prints the messages a second of all logs together, and how long one waited.
#include "check.h"
#include "log/log.h"
#include "log_schema.h"

#include <algorithm>
#include <iostream>
#include <stdexcept>

#include <fmt/format.h>
#include <pqxx/pqxx>

namespace gateway::tests {

namespace {

using Clock = std::chrono::steady_clock;
using Waits = std::vector<double>; // milliseconds

class BenchLog {
  public:
    BenchLog(const std::string &connection, unsigned number)
        : schema_(log_schema("log_bench", number)), connection_(connection), clock_(today()),
          entry_feed_(0), database_(open_postgres({connection, schema_, "log_bench"})) {
        Log::Start start;
        start.term = database_->take_over().value();
        start.last = begin(start.term);
        log_ = std::make_unique<Log>(*database_, entry_feed_, clock_, metrics_, std::move(start),
                                     [](const std::string &cause) { std::cerr << cause << '\n'; });
    }
    ~BenchLog() {
        log_.reset();
        database_.reset();
        pqxx::connection connection(connection_);
        drop_if_own(connection, schema_);
    }

    // Appends until then.
    Waits append(unsigned thread, Clock::time_point end) {
        const std::string firm = fmt::format("F{}", thread);
        const std::string frame(200, 'x');
        Waits waits;
        for (std::uint32_t number = 1; Clock::now() < end; ++number) {
            const auto begin = Clock::now();
            log_->wait(log_->append_message(
                firm, Log::Came{number, 1, std::chrono::system_clock::now()}, frame));
            waits.push_back(
                std::chrono::duration<double, std::milli>(Clock::now() - begin).count());
        }
        return waits;
    }

  private:
    Entry begin(std::uint32_t term) {
        Entry first;
        first.term = term;
        first.moment = "00:00:00.000";
        first.hash = hash_of(first);
        Batch batch;
        batch.entries.push_back(first);
        database_->writer()->commit(batch);
        return first;
    }

    std::string schema_;
    std::string connection_;
    DayClock clock_;
    Metrics metrics_;
    EntryFeed entry_feed_;
    std::unique_ptr<Database> database_;
    std::unique_ptr<Log> log_;
};

void run(const std::string &connection, unsigned logs, unsigned threads, unsigned seconds) {
    std::vector<std::unique_ptr<BenchLog>> all;
    for (unsigned number = 0; number < logs; ++number) {
        all.push_back(std::make_unique<BenchLog>(connection, number));
    }
    std::vector<Waits> waits(logs * threads);
    const auto end = Clock::now() + std::chrono::seconds(seconds);
    std::vector<std::jthread> running;
    for (unsigned at = 0; at < waits.size(); ++at) {
        running.emplace_back([&, at] { waits[at] = all[at / threads]->append(at % threads, end); });
    }
    running.clear();
    Waits together;
    for (const Waits &each : waits) {
        together.insert(together.end(), each.begin(), each.end());
    }
    std::ranges::sort(together);
    const auto part = [&](double share) {
        return together.at(
            static_cast<std::size_t>(share * static_cast<double>(together.size() - 1)));
    };
    std::cout << fmt::format("{} logs, {} threads each: {} messages a second; waited {:.2f} ms in "
                             "the median, {:.2f} ms at the 99th percentile\n",
                             logs, threads, together.size() / seconds, part(0.5), part(0.99));
}

} // namespace

} // namespace gateway::tests

int main(int count, char **words) {
    using namespace gateway::tests;
    const auto number = [](const char *word) { return static_cast<unsigned>(std::stoul(word)); };
    return run_with(count, words, 4, 4, "log_bench CONNECTION LOGS THREADS SECONDS",
                    [&](std::span<char *> given) {
                        run(given[0], number(given[1]), number(given[2]), number(given[3]));
                    });
}
