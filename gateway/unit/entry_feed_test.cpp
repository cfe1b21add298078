// Tests entries that the venue is given while they are being committed: each is there before its
// commit is done, is kept until the database has it, and is never taken for committed if the commit
// fails.
#define DOCTEST_CONFIG_IMPLEMENT_WITH_MAIN
#include <doctest/doctest.h>

#include "check.h"
#include "log_days.h"

#include <chrono>
#include <mutex>
#include <semaphore>

namespace gateway::tests {

namespace {

using namespace std::chrono_literals;

constexpr auto longest = 60s;

// A database whose commits wait until they are let go, and fail where they are to.
class HeldDatabase final : public Database {
  public:
    std::unique_ptr<LogReader> reader() override { return nullptr; }
    std::optional<std::uint32_t> take_over() override { return 0; }
    std::unique_ptr<LogWriter> writer() override { return std::make_unique<Writer>(*this); }

    // Whether a commit has begun since this was asked last.
    bool commits() { return begun_.try_acquire_for(longest); }
    void let_go(bool fails = false) {
        fails_ = fails;
        let_go_.release();
    }

  private:
    class Writer final : public LogWriter {
      public:
        explicit Writer(HeldDatabase &of) : of_(of) {}
        void commit(const Batch &) override {
            of_.begun_.release();
            if (!of_.let_go_.try_acquire_for(longest) || of_.fails_) {
                throw std::runtime_error("no room");
            }
        }
        void be_seen() override {}

      private:
        HeldDatabase &of_;
    };

    std::counting_semaphore<> begun_{0};
    std::counting_semaphore<> let_go_{0};
    std::atomic<bool> fails_{false};
};

// The places that a venue was given.
class Given final : public EntryFeed::Reader {
  public:
    void entries_came(const std::vector<LoggedEntry> &entries) override {
        const std::lock_guard lock(mutex_);
        for (const LoggedEntry &logged : entries) {
            places_.push_back(logged.entry.place);
        }
    }
    void no_more_come() override {}
    std::vector<std::uint32_t> places() {
        const std::lock_guard lock(mutex_);
        return places_;
    }

  private:
    std::mutex mutex_;
    std::vector<std::uint32_t> places_;
};

// A log that begins, and who is given its entries.
struct HeldDay {
    explicit HeldDay(HeldDatabase &database)
        : log(database, feed, clock, metrics, Log::Start{},
              [this](const std::string &cause) { told = cause; }) {
        feed.tell(&given);
    }

    DayClock clock{today()};
    Metrics metrics;
    Given given;
    EntryFeed feed{0};
    std::string told; // of the log's failure
    Log log;
};

using Places = std::vector<std::uint32_t>;

TEST_CASE("given while it is committed") {
    HeldDatabase database;
    HeldDay day(database);
    day.log.append_message("F", came(1), "x");
    check(database.commits(), "nothing is committed");
    check(day.given.places() == Places{1}, "the venue waits for the commit");
    check(!day.log.is_committed(1), "it is committed before its end");
    check(!day.log.wait_for(1, 0ms), "its batch is committed before its end");
    database.let_go();
    day.log.wait_for_entry(1);
    check(day.log.is_committed(1) && !day.log.is_committed(2), "it is not committed");
    check(day.given.places() == Places{1}, "the venue was given it twice");
}

TEST_CASE("given, and the commit fails") {
    HeldDatabase database;
    HeldDay day(database);
    day.log.append_message("F", came(1), "x");
    check(database.commits(), "nothing is committed");
    check(day.given.places() == Places{1}, "the venue waits for the commit");
    database.let_go(true);
    CHECK_THROWS_AS(day.log.wait_for_entry(1), std::runtime_error);
    check(!day.log.is_committed(1), "a commit that failed is taken for one");
    check(!day.log.failure().empty(), "the log has not failed");
}

// Of a batch that is larger than what is kept as a rule, too: the database does not have it.
TEST_CASE("kept until the database has them") {
    constexpr std::uint32_t count = 10;
    EntryFeed feed(0);
    std::vector<LoggedEntry> entries(count);
    for (std::uint32_t at = 0; at < count; ++at) {
        entries[at].entry.place = at + 1;
        entries[at].entry.line.assign(1 << 20, 'x');
    }
    feed.put_ahead(entries);
    same<std::size_t>(count, feed.from(1).value().size(), "entries that are being committed");
    feed.are_stored();
    check(!feed.from(1), "10 MiB are kept");
    check(feed.from(count).value().size() == 1, "the last one is not kept");
}

} // namespace

} // namespace gateway::tests
