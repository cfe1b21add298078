// A clock that is set, one that is set little by little, and one that is only slewed.
#define DOCTEST_CONFIG_IMPLEMENT_WITH_MAIN
#include <doctest/doctest.h>

#include "check.h"
#include "day/clock_log.h"
#include "health/clock_watch.h"
#include "log/log.h"

#include <chrono>
#include <memory>
#include <optional>
#include <string>
#include <vector>

namespace gateway::tests {

namespace {

using namespace std::chrono_literals;

// A clock that goes on as it is told.
struct Machine {
    ClockWatch::Reading now{1000s, 10s};

    // So long passes, and the clock is set by so much meanwhile.
    void pass(std::chrono::microseconds passed, std::chrono::microseconds set_by) {
        now.since_boot += passed;
        now.time += passed + set_by;
    }
    ClockWatch watch() {
        return ClockWatch([this] { return now; });
    }
};

void check_step(ClockWatch &watch, std::optional<std::chrono::microseconds> wanted,
                const std::string &what) {
    const auto came = watch.look();
    check(came == wanted, fmt::format("{}: {}", what, came ? came->count() : 0));
}

TEST_CASE("set at once") {
    Machine machine;
    ClockWatch watch = machine.watch();
    machine.pass(1s, 0us);
    check_step(watch, std::nullopt, "a clock that goes on");
    machine.pass(1s, 100ms);
    check_step(watch, std::nullopt, "100 ms");
    machine.pass(1s, 101ms - 100ms + 1ms);
    check_step(watch, 101ms, "a little more, with what was not told");
    machine.pass(1s, -40s);
    check_step(watch, -40s, "set back");
    machine.pass(1s, 0us);
    check_step(watch, std::nullopt, "told once");
    machine.pass(1h, 0us);
    check_step(watch, std::nullopt, "a machine that slept");
}

// Half of what the watch lets pass: a day of it is no step.
TEST_CASE("slewed") {
    Machine machine;
    ClockWatch watch = machine.watch();
    for (int second = 0; second < 24 * 60 * 60; ++second) {
        machine.pass(1s, 500us);
        check_step(watch, std::nullopt, "slewed");
    }
}

TEST_CASE("set little by little") {
    Machine machine;
    ClockWatch watch = machine.watch();
    int told = 0;
    for (int second = 0; second < 60; ++second) {
        machine.pass(1s, -50ms);
        told += watch.look() ? 1 : 0;
    }
    check(told >= 15, fmt::format("50 ms a second, told {} times in a minute", told));
}

// Keeps the lines that are committed.
class Lines final : public Database {
  public:
    std::unique_ptr<LogReader> reader() override { return nullptr; }
    std::optional<std::uint32_t> take_over() override { return 0; }
    std::unique_ptr<LogWriter> writer() override { return std::make_unique<Writer>(lines); }

    std::vector<std::string> lines;

  private:
    class Writer final : public LogWriter {
      public:
        explicit Writer(std::vector<std::string> &lines) : lines_(lines) {}
        void commit(const Batch &batch) override {
            for (const Entry &entry : batch.entries) {
                lines_.push_back(entry.line.substr(0, 8) + entry.line.substr(21));
            }
        }
        void be_seen() override {}

      private:
        std::vector<std::string> &lines_;
    };
};

// The first time, where it changes, and not again within five minutes; and each step.
TEST_CASE("what the log has of the clock") {
    Lines database;
    {
        EntryFeed feed(0);
        DayClock clock(today());
        Metrics metrics;
        Log log(database, feed, clock, metrics, Log::Start{}, [](const std::string &) {});
        ClockLog clock_log(log);
        KernelClock kernel;
        kernel.is_synchronised = true;
        kernel.greatest_error = 7us;
        clock_log.look(kernel, {});
        clock_log.look(kernel, {});
        kernel.greatest_error = 8us;
        clock_log.look(kernel, {-3us});
        kernel.is_synchronised = false;
        clock_log.look(kernel, {4us, 5us});
        clock_log.look(kernel, {});
    }
    CHECK(database.lines == std::vector<std::string>{"# clock synchronised 7", "# clock set -3",
                                                     "# clock set 4", "# clock set 5",
                                                     "# clock unsynchronised 8"});
}

// The first sixty-four each, and all of them in sum.
TEST_CASE("steps that wait for a log") {
    using Steps = std::vector<std::chrono::microseconds>;
    ClockSteps steps;
    CHECK(steps.take().empty());
    Steps wanted;
    for (int step = 1; step <= 64; ++step) {
        steps.put(std::chrono::microseconds(step));
        wanted.emplace_back(step);
    }
    CHECK(steps.take() == wanted);
    CHECK(steps.take().empty());
    for (int step = 1; step <= 66; ++step) {
        steps.put(std::chrono::microseconds(step));
    }
    wanted.back() = 64us + 65us + 66us;
    CHECK(steps.take() == wanted);
}

TEST_CASE("what the kernel says") {
    check(read_kernel_clock().greatest_error >= 0us, "an error below nothing");
}

} // namespace

} // namespace gateway::tests
