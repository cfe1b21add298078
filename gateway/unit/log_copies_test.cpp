// What the log commits with an entry, and what behind it.
#define DOCTEST_CONFIG_IMPLEMENT_WITH_MAIN
#include <doctest/doctest.h>

#include "check.h"
#include "log/log.h"
#include "log_days.h"

#include <algorithm>
#include <functional>
#include <set>
#include <string>
#include <tuple>
#include <utility>
#include <vector>

#include <fmt/format.h>

namespace gateway::tests {

namespace {

// A database that remembers each transaction.
class RememberingDatabase final : public Database {
  public:
    std::unique_ptr<LogReader> reader() override { return nullptr; }
    std::optional<std::uint32_t> take_over() override { return 0; }
    std::unique_ptr<LogWriter> writer() override { return std::make_unique<Writer>(*this); }

    const std::vector<Batch> &batches() const { return batches_; }
    // How many of them were committed as the copy alone.
    int alone() const { return alone_; }

  private:
    class Writer final : public LogWriter {
      public:
        explicit Writer(RememberingDatabase &database) : database_(database) {}
        void commit(const Batch &batch) override { database_.batches_.push_back(batch); }
        void commit_copies(const Batch &batch) override {
            ++database_.alone_;
            commit(batch);
        }
        void be_seen() override {}

      private:
        RememberingDatabase &database_;
    };
    std::vector<Batch> batches_;
    int alone_ = 0;
};

// A session was given the venue's message of this number, with a mark that names it.
Log::SessionChange given(std::uint32_t number) {
    Log::SessionChange change{"F", Sent{"F", number, number, "frame", {}}};
    change.mark.emplace().firm = "F";
    change.mark->given = number;
    return change;
}

// The metrics know of each row, whichever transaction it came with.
void check_counted(const Metrics &metrics, const std::vector<Batch> &batches) {
    std::size_t rows = 0;
    for (const Batch &batch : batches) {
        rows += batch.sent.size();
    }
    check(metrics.text().find(fmt::format("\nmireseason_sent_total {}\n", rows)) !=
              std::string::npos,
          fmt::format("{} rows of the copy, and not as many counted", rows));
}

// What a log does with these, once it has ended.
template <typename Give> std::vector<Batch> batches_of(Give give) {
    RememberingDatabase database;
    DayClock clock(today());
    Metrics metrics;
    {
        EntryFeed feed(0);
        Log log(database, feed, clock, metrics, Log::Start{}, [](const std::string &) {});
        give(log);
    }
    check_counted(metrics, database.batches());
    return database.batches();
}

void put_entry(Log &log, std::uint32_t number) {
    log.append_message("F", came(number), "x", Log::Committer::caller);
    log.commit();
    log.wait_for_entry(number);
}

// What a log has done once it has ended, to which this is put by whoever has just committed its
// first entry: before it looks whether the copy can be committed by itself.
template <typename Put> void put_behind_an_entry(RememberingDatabase &database, Put put) {
    DayClock clock(today());
    Metrics metrics;
    EntryFeed feed(0);
    Log *own = nullptr;
    bool is_first = true;
    Log::Start start;
    start.stored = [&] {
        if (std::exchange(is_first, false)) {
            put(*own);
        }
    };
    Log log(database, feed, clock, metrics, std::move(start), [](const std::string &) {});
    own = &log;
    put_entry(log, 1);
}

// So many rows of the copy.
void put_copies(Log &log, std::uint32_t count) {
    for (std::uint32_t number = 1; number <= count; ++number) {
        log.put(given(number));
    }
}

constexpr std::uint32_t enough = 8;

bool are_committed_alone(std::uint32_t count) {
    RememberingDatabase database;
    put_behind_an_entry(database, [count](Log &log) { put_copies(log, count); });
    return database.alone() > 0;
}

ConnectionEvent a_logon() {
    ConnectionEvent event;
    event.event = connection_events::logon;
    event.firm = "F";
    event.address = "192.0.2.1:1";
    return event;
}

constexpr std::uint32_t entries = 60;
constexpr std::uint32_t messages_of_each = 3;

} // namespace

TEST_CASE("no entry waits for the copy of what was sent") {
    const auto batches = batches_of([](Log &log) {
        std::uint32_t sent = 0;
        for (std::uint32_t number = 1; number <= entries; ++number) {
            put_entry(log, number);
            for (std::uint32_t more = 0; more < messages_of_each; ++more) {
                log.put(given(++sent));
            }
        }
    });
    std::size_t placed = 0;
    std::set<std::uint32_t> copied;
    for (const Batch &batch : batches) {
        check(batch.entries.empty() || batch.sent.empty(), "an entry with rows of the copy");
        placed += batch.entries.size();
        for (const Sent &row : batch.sent) {
            check(copied.insert(row.number).second, "a row twice");
        }
    }
    same<std::size_t>(entries, placed, "entries");
    same<std::size_t>(std::size_t{entries} * messages_of_each, copied.size(), "rows");
}

// Also where the copy would be committed by itself: whoever waits for the other would wait for it.
TEST_CASE("what is put before the copy is not committed behind it") {
    using Holds = bool (*)(const Batch &);
    const std::tuple<const char *, std::function<void(Log &)>, Holds> all[] = {
        {"an entry",
         [](Log &log) { log.append_message("F", came(2), "x", Log::Committer::caller); },
         [](const Batch &batch) { return !batch.entries.empty() && batch.entries[0].place == 2; }},
        {"a session note",
         [](Log &log) {
             log.put({"F", {}, {"reject"}});
         },
         [](const Batch &batch) { return std::ranges::count(batch.notes, "reject") > 0; }},
        {"a connection", [](Log &log) { log.put_connection(a_logon()); },
         [](const Batch &batch) { return !batch.connections.empty(); }},
        {"a checkpoint", [](Log &log) { log.put_checkpoint({}); },
         [](const Batch &batch) { return !batch.checkpoints.empty(); }},
    };
    for (const auto &[what, put, holds] : all) {
        RememberingDatabase database;
        put_behind_an_entry(database, [&put = put](Log &log) {
            put(log);
            put_copies(log, enough);
        });
        const std::vector<Batch> &batches = database.batches();
        const auto other = std::ranges::find_if(batches, holds);
        const auto copy =
            std::ranges::find_if(batches, [](const Batch &batch) { return !batch.sent.empty(); });
        check(other != batches.end() && copy != batches.end(), fmt::format("{} is lost", what));
        check(other <= copy, fmt::format("{} waits for the copy", what));
    }
}

// A log that a busy machine keeps from it for long commits them with all else.
TEST_CASE("so many rows of the copy are committed by themselves") {
    CHECK_FALSE(are_committed_alone(enough - 1));
    bool is_alone = false;
    for (int tries = 0; tries < 100 && !is_alone; ++tries) {
        is_alone = are_committed_alone(enough);
    }
    CHECK(is_alone);
}

TEST_CASE("no mark stands in front of what it names") {
    const auto batches = batches_of([](Log &log) {
        for (std::uint32_t number = 1; number <= entries; ++number) {
            log.put(given(number));
            put_entry(log, number);
        }
    });
    std::uint32_t copied = 0;
    std::uint32_t marked = 0;
    for (const Batch &batch : batches) {
        for (const Sent &row : batch.sent) {
            copied = std::max(copied, row.number);
        }
        for (const std::string &mark : batch.notes) {
            const std::uint32_t names = session_note_of(mark).value().given;
            check(names <= copied, "a mark in front of what it names");
            check(names > marked, "a mark that falls");
            marked = names;
        }
    }
    same(entries, marked, "what the last mark names");
}

TEST_CASE("what a session says itself is there with the next entry") {
    const auto batches = batches_of([](Log &log) {
        log.put(given(1));
        log.put({"F", {}, {"reject"}});
        put_entry(log, 1);
    });
    std::size_t copied = 0;
    bool is_noted = false;
    for (const Batch &batch : batches) {
        copied += batch.sent.size();
        is_noted = is_noted || std::ranges::count(batch.notes, "reject") > 0;
        if (!batch.entries.empty()) {
            check(is_noted && copied == 1, "an entry in front of the Reject");
        }
    }
}

} // namespace gateway::tests
