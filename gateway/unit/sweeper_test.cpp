// The clock of the venue: a deadline that has come, messages that always come after it, and a venue
// that does not answer meanwhile, or not the sweep.
#define DOCTEST_CONFIG_IMPLEMENT_WITH_MAIN
#include <doctest/doctest.h>

#include "check.h"
#include "day/sweeper.h"

#include <atomic>
#include <iostream>
#include <mutex>
#include <optional>
#include <thread>

namespace gateway::tests {

namespace {

using namespace std::chrono_literals;

constexpr auto longest = 60s;

// Keeps what is committed.
class MemoryDatabase final : public Database {
  public:
    std::unique_ptr<LogReader> reader() override { return nullptr; }
    std::optional<std::uint32_t> take_over() override { return 0; }
    std::unique_ptr<LogWriter> writer() override { return std::make_unique<Writer>(*this); }

    std::vector<Entry> entries() {
        const std::lock_guard lock(mutex_);
        return entries_;
    }

  private:
    class Writer final : public LogWriter {
      public:
        explicit Writer(MemoryDatabase &database) : database_(database) {}
        void commit(const Batch &batch) override {
            const std::lock_guard lock(database_.mutex_);
            database_.entries_.insert(database_.entries_.end(), batch.entries.begin(),
                                      batch.entries.end());
        }
        void be_seen() override {}

      private:
        MemoryDatabase &database_;
    };

    std::mutex mutex_;
    std::vector<Entry> entries_;
};

// A log whose venue has answered place 1, and told a deadline that has come.
struct DayWithADeadline {
    DayWithADeadline() {
        log.append_message("F", Log::Came{1, 1, {}}, "x");
        progress.begin(0);
        progress.put(1, Moment{0});
    }

    MemoryDatabase database;
    DayClock clock{today()};
    Metrics metrics;
    EntryFeed feed{0};
    VenueProgress progress;
    Log log{database, feed,         clock,
            metrics,  Log::Start{}, [](const std::string &cause) { std::cerr << cause << '\n'; }};
};

std::size_t sweeps_of(MemoryDatabase &database) {
    std::size_t sweeps = 0;
    for (const Entry &entry : database.entries()) {
        sweeps += entry.firm ? 0 : 1;
    }
    return sweeps;
}

// Whether it holds before long.
template <typename Condition> bool comes(const Condition &condition) {
    const auto latest = std::chrono::steady_clock::now() + longest;
    while (!condition()) {
        if (std::chrono::steady_clock::now() > latest) {
            return false;
        }
        std::this_thread::yield();
    }
    return true;
}

// After the entry whose mark told the deadline, and once.
TEST_CASE("a deadline that has come") {
    DayWithADeadline day;
    {
        Sweeper sweeper(day.progress, day.log, day.clock);
        sweeper.start();
        check(comes([&] { return day.feed.last_place() == 2; }), "no sweep");
        day.progress.put(2, std::nullopt);
    }
    const std::vector<Entry> entries = day.database.entries();
    same<std::size_t>(2, entries.size(), "entries");
    check(entries[0].firm && !entries[1].firm, "no sweep after the message");
}

// A firm that has always another message, from the third on. The one of each number has that place,
// as long as there is no sweep.
class BusyFirm {
  public:
    explicit BusyFirm(DayWithADeadline &day) : day_(day), thread_([this] { run(); }) {}
    ~BusyFirm() {
        is_over_ = true;
        // What is held for an answer goes on.
        day_.progress.put(day_.log.last_place(), std::nullopt);
    }
    BusyFirm(const BusyFirm &) = delete;
    BusyFirm &operator=(const BusyFirm &) = delete;

    std::uint32_t last() const { return last_; }
    // The last place of the log, if the message behind it waits and no sweep is in front of it.
    std::optional<std::uint32_t> held_behind() {
        const std::uint32_t place = day_.log.last_place();
        const bool is_held = day_.log.waiting() == 1 && last_ == place + 1;
        return is_held ? std::optional(place) : std::nullopt;
    }

  private:
    void run() {
        while (!is_over_) {
            day_.log.append_message("F", Log::Came{++last_, 1, {}}, "x");
            day_.log.flush();
        }
    }

    DayWithADeadline &day_;
    std::atomic<std::uint32_t> last_{2};
    std::atomic<bool> is_over_{false};
    std::jthread thread_; // the last one, as it uses the others
};

// Messages are held for the sweep, but for no longer than a while: the venue may not answer before
// one of them is in the log.
TEST_CASE("a venue that does not answer") {
    DayWithADeadline day;
    day.log.append_message("F", Log::Came{2, 1, {}}, "x");
    Sweeper sweeper(day.progress, day.log, day.clock);
    sweeper.start();
    BusyFirm firm(day);
    check(comes([&] { return firm.held_behind().has_value(); }), "no message is held");
    const std::uint32_t held = firm.last();
    check(comes([&] { return firm.last() > held; }),
          "a firm waits for a venue that does not answer");
    same<std::size_t>(0, sweeps_of(day.database), "sweeps after other messages");
}

// Messages go on after a sweep: the venue may not answer it before one of them is in the log.
TEST_CASE("a sweep that is not answered") {
    DayWithADeadline day;
    day.log.append_message("F", Log::Came{2, 1, {}}, "x");
    Sweeper sweeper(day.progress, day.log, day.clock);
    sweeper.start();
    BusyFirm firm(day);
    // The venue answers what it has while a message is held, so the sweep comes before that one.
    // Where the hold has ended meanwhile it is no longer the last place, and the next hold is
    // waited for.
    const bool is_swept = comes([&] {
        if (const auto place = firm.held_behind()) {
            day.progress.put(*place, Moment{0});
        }
        return sweeps_of(day.database) == 1;
    });
    check(is_swept, "no sweep while a message is held");
    check(comes([&] { return day.database.entries().back().firm.has_value(); }),
          "a firm waits for a sweep that is not answered");
}

} // namespace

} // namespace gateway::tests
