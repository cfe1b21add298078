// Tests the firms' shares of the log: the order of what was received, how much of a batch and of
// the unanswered entries one firm may have, and who goes first if many wait.
#define DOCTEST_CONFIG_IMPLEMENT_WITH_MAIN
#include <doctest/doctest.h>

#include "check.h"
#include "common/rate.h"
#include "log/arrivals.h"
#include "log/fair_share.h"
#include "log/log.h"

#include <algorithm>
#include <chrono>
#include <condition_variable>
#include <iostream>
#include <mutex>
#include <thread>
#include <vector>

namespace gateway::tests {

namespace {

using namespace std::chrono_literals;

constexpr auto longest = 60s;

Arrival arrival_at(std::int64_t microseconds) {
    Arrival arrival;
    arrival.at = ExactMoment{microseconds};
    return arrival;
}

// By receipt, and those of one moment as they came; what is fenced stays in front.
TEST_CASE("in the order of receipt") {
    Arrivals arrivals;
    for (const std::int64_t at : {5, 3, 4, 3}) {
        arrivals.put(arrival_at(at));
    }
    arrivals.fence();
    for (const std::int64_t at : {2, 1}) {
        arrivals.put(arrival_at(at));
    }
    std::vector<std::int64_t> order;
    for (const Arrival &each : arrivals.take()) {
        order.push_back(each.at.microseconds);
    }
    check(order == std::vector<std::int64_t>{3, 3, 4, 5, 1, 2}, "another order");
    check(arrivals.empty() && arrivals.bytes() == 0, "something is left");
}

// Two of a batch, three that are not answered, and four of all firms.
TEST_CASE("shares of firms") {
    FairShare shares({2, 3, 4});
    shares.put("A");
    check(shares.has_room("A"), "no second one in a batch");
    shares.put("A");
    check(!shares.has_room("A") && shares.has_room("B"), "a third one in a batch");
    shares.committed("A", 1);
    shares.committed("A", 2);
    shares.batch_taken();
    check(shares.has_room("A"), "two unanswered ones are too many");
    shares.put("A");
    check(!shares.has_room("A"), "a fourth one that is not answered");
    shares.committed("A", 3);
    shares.committed("B", 4);
    shares.batch_taken();
    check(!shares.has_room("B"), "a fifth one of all");
    shares.answered(1);
    check(shares.has_room("A") && shares.has_room("B"), "no room after an answer");
    // Another process of the venue answers again.
    shares.answered(0);
    check(shares.has_room("A"), "an answer was taken back");
}

// What is in the next batch counts for all firms together, too.
TEST_CASE("a share of all firms") {
    FairShare shares({4, 4, 3});
    shares.committed("A", 1);
    shares.put("A");
    check(shares.has_room("B"), "no third one of all");
    shares.put("B");
    check(!shares.has_room("C"), "a fourth one of all");
    shares.batch_taken();
    check(shares.has_room("C"), "no room once nothing is in the batch");
}

// A burst of two, and then one each tenth of a second.
TEST_CASE("a rate") {
    const auto begin = Rate::Clock::now();
    Rate rate(10, 2);
    check(rate.take(2, begin) <= begin, "the burst is owed");
    check(rate.take(1, begin) == begin + 100ms, "one more is not owed");
    check(rate.take(1, begin + 50ms) == begin + 200ms, "what is owed does not add up");
    check(rate.take(2, begin + 400ms) <= begin + 400ms, "what was paid off is owed");
    check(rate.take(20, begin + 10s) == begin + 11800ms, "there is more than the burst");
}

// Keeps what is committed, and each commit waits until it is let through.
class GatedDatabase final : public Database {
  public:
    std::unique_ptr<LogReader> reader() override { return nullptr; }
    std::optional<std::uint32_t> take_over() override { return 0; }
    std::unique_ptr<LogWriter> writer() override { return std::make_unique<Writer>(*this); }

    void open() {
        const std::lock_guard lock(mutex_);
        open_ = true;
        changed_.notify_all();
    }
    std::vector<std::vector<Entry>> batches() {
        const std::lock_guard lock(mutex_);
        return batches_;
    }

  private:
    class Writer final : public LogWriter {
      public:
        explicit Writer(GatedDatabase &database) : database_(database) {}
        void commit(const Batch &batch) override {
            std::unique_lock lock(database_.mutex_);
            database_.changed_.wait_for(lock, longest, [this] { return database_.open_; });
            database_.batches_.push_back(batch.entries);
        }
        void be_seen() override {}

      private:
        GatedDatabase &database_;
    };

    std::mutex mutex_;
    std::condition_variable changed_;
    bool open_ = false;
    std::vector<std::vector<Entry>> batches_;
};

struct GatedLog {
    explicit GatedLog(ShareLimits shares) {
        start.shares = shares;
        log = std::make_unique<Log>(database, feed, clock, metrics, std::move(start),
                                    [](const std::string &cause) { std::cerr << cause << '\n'; });
    }

    GatedDatabase database;
    DayClock clock{today()};
    Metrics metrics;
    EntryFeed feed{0};
    Log::Start start;
    std::unique_ptr<Log> log;
};

void put_many(Log &log, const std::string &firm, std::uint32_t count) {
    for (std::uint32_t number = 1; number <= count; ++number) {
        log.append_message(firm, Log::Came{number, 1, std::chrono::system_clock::now()}, "x");
    }
}

// A firm that has always another message has no more of a batch than its share, and one that has a
// single one is in the next batch.
TEST_CASE("a share of each batch") {
    constexpr std::uint32_t many = 20;
    GatedLog gated({2, many, many + 1});
    std::jthread busy([&] { put_many(*gated.log, "BUSY", many); });
    const auto latest = std::chrono::steady_clock::now() + longest;
    while (gated.log->waiting() == 0 && std::chrono::steady_clock::now() < latest) {
        std::this_thread::yield();
    }
    std::jthread quiet([&] { put_many(*gated.log, "QUIET", 1); });
    quiet.join();
    gated.database.open();
    busy.join();
    gated.log->flush();
    std::size_t at = 0;
    std::size_t batch_of_quiet = 0;
    for (const auto &batch : gated.database.batches()) {
        ++at;
        const auto of_busy = std::ranges::count(batch, "BUSY", &Entry::firm);
        check(of_busy <= 2, fmt::format("{} of one firm in a batch", of_busy));
        if (std::ranges::count(batch, "QUIET", &Entry::firm) > 0) {
            batch_of_quiet = at;
        }
    }
    check(batch_of_quiet >= 1 && batch_of_quiet <= 2,
          fmt::format("the other firm's message is in batch {}", batch_of_quiet));
}

// What the venue does not answer is no more than may be; then it goes on.
TEST_CASE("no more than the venue answers") {
    constexpr std::uint32_t many = 6;
    GatedLog gated({ShareLimits::none, 3, ShareLimits::none});
    gated.database.open();
    std::jthread busy([&] { put_many(*gated.log, "BUSY", many); });
    const auto latest = std::chrono::steady_clock::now() + longest;
    while (gated.log->waiting() == 0 && std::chrono::steady_clock::now() < latest) {
        std::this_thread::yield();
    }
    same(std::uint32_t{3}, gated.log->last_place(), "entries before the first answer");
    // The gateway speaks for the firm all the same.
    gated.log->append_message("BUSY", std::nullopt, "x");
    // The venue is given what is committed, and nothing else.
    gated.log->flush();
    gated.log->answered(4);
    busy.join();
    same(many + 1, gated.log->last_place(), "entries after it");
}

Log::Came came_at(std::chrono::system_clock::time_point at) {
    return {1, 1, at};
}

// An entry's moment is that of its receipt, however long it waits; no moment is below the one
// before it, and what waits for one batch stands in the order of receipt.
TEST_CASE("the moment is that of the receipt") {
    GatedLog gated({});
    const auto begin = std::chrono::system_clock::now();
    gated.log->append_message("A", came_at(begin - 30ms), "x");
    const auto latest = std::chrono::steady_clock::now() + longest;
    while (!gated.log->commits_since() && std::chrono::steady_clock::now() < latest) {
        std::this_thread::yield();
    }
    for (const auto &[firm, ago] : {std::pair("B", 0ms), {"C", 20ms}, {"D", 40ms}}) {
        gated.log->append_message(firm, came_at(begin - ago), "x");
    }
    gated.database.open();
    gated.log->flush();
    const auto batches = gated.database.batches();
    same<std::size_t>(2, batches.size(), "batches");
    const std::vector<Entry> &waited = batches[1];
    same<std::size_t>(3, waited.size(), "entries that waited");
    const std::string firms = *waited[0].firm + *waited[1].firm + *waited[2].firm;
    same<std::string>("DCB", firms, "their order");
    same(batches[0][0].moment, waited[0].moment, "the moment of one that was received earlier");
    same(waited[1].received.substr(0, 12), waited[1].moment, "the moment of one that waited");
    same(waited[2].received.substr(0, 12), waited[2].moment, "the moment of the last one");
    same<std::uint32_t>(4, waited[2].place, "the last place");
}

} // namespace

} // namespace gateway::tests
