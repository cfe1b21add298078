// What a day does as the machine's clock comes to its end, or is set; and what is told of the log's
// disk.
#define DOCTEST_CONFIG_IMPLEMENT_WITH_MAIN
#include <doctest/doctest.h>

#include "check.h"
#include "health/disk_reserve.h"
#include "still_clock.h"
#include "test_keys.h"
#include "venue/venue_day.h"

#include <chrono>
#include <memory>
#include <sstream>
#include <string>

#include <fmt/format.h>
#include <spdlog/sinks/ostream_sink.h>

namespace gateway::tests {

using namespace std::chrono_literals;

// A venue's day, at nine.
class OneDay {
  public:
    explicit OneDay(const std::string &venue = "", std::uint64_t reserve = 0) {
        config_.venue = venue;
        config_.configuration = "version = 1\n";
        config_.firms = {"20250314", {"F"}};
        config_.sqlite = folder_.path() / "day.db";
        config_.spool = folder_.path();
        config_.disk = folder_.path();
        config_.reserve = reserve;
        give_keys(config_, folder_.path());
        auto sink = std::make_shared<spdlog::sinks::ostream_sink_mt>(written_);
        sink->set_pattern("%l %v");
        events_ = std::make_shared<spdlog::logger>("events", sink);
        status = std::make_unique<Status>(events_);
        told_ = std::make_unique<OperatorEvents>(metrics, events_);
        day = std::make_unique<VenueDay>(config_, metrics, *status, events_, *told_);
    }

    // What was told since it was asked last.
    std::string told() {
        std::string text = written_.str();
        written_.str("");
        return text;
    }
    bool counts(const std::string &line) const {
        return metrics.text().find("\nmireseason_" + line + "\n") != std::string::npos;
    }

    StillClock clock;
    Metrics metrics;
    std::unique_ptr<Status> status;

  private:
    const Scratch folder_{"clock_of_day"};
    std::ostringstream written_;
    std::shared_ptr<spdlog::logger> events_;
    std::unique_ptr<OperatorEvents> told_;
    Config config_;

  public:
    std::unique_ptr<VenueDay> day; // the first to end
};

TEST_CASE("a clock that stands still") {
    OneDay one("north");
    one.day->look_at_clock();
    CHECK_FALSE(one.status->stopping().stop_requested());
    const auto longest = one.status->liveness().longest();
    REQUIRE(longest);
    CHECK(longest->part == "the gateway venue=north");
    CHECK(longest->time < 60s);
    CHECK(one.day->of_venue() == " venue=north");
    CHECK(OneDay().day->of_venue() == "");
}

TEST_CASE("the end of a day is no fault") {
    OneDay one;
    one.clock.move(15h - 1s);
    one.day->look_at_clock();
    one.told();
    CHECK_FALSE(one.status->stopping().stop_requested());
    one.clock.move(1s);
    one.day->look_at_clock();
    CHECK(one.status->stopping().stop_requested());
    CHECK(one.status->why() == "the day is over");
    CHECK_FALSE(one.status->failure());
    CHECK(one.status->exit_status() == 0);
}

TEST_CASE("a clock that is set to another day is one") {
    for (const auto &[by, date] : {std::pair(-10h, "20250313"), std::pair(48h, "20250316")}) {
        OneDay one;
        one.day->look_at_clock();
        one.clock.move(by);
        one.day->look_at_clock();
        CHECK(one.status->failure() == fmt::format("the clock was set from 20250314 to {}", date));
    }
}

// By more than two seconds, at once or in several steps, no request and no quote is taken. (What
// measures goes on meanwhile, so that a step is a little less.)
TEST_CASE("a clock that is set within the day") {
    const std::string set = "error clock was set venue=north by=";
    const std::string doubt = "\nerror no request and no quote is taken venue=north until=\"an "
                              "operator accepts the clock\" cause=\"the clock was set by ";
    OneDay one("north");
    one.day->look_at_clock();
    one.told();
    one.clock.move(1900ms);
    one.day->look_at_clock();
    const std::string first = one.told();
    CHECK_MESSAGE(first.starts_with(set + "1."), first);
    CHECK_MESSAGE(first.find(doubt) == std::string::npos, first);
    CHECK(one.day->clock_is_right);
    CHECK(one.counts("clock_steps_total 1"));
    one.clock.move(1900ms);
    one.day->look_at_clock();
    const std::string second = one.told();
    CHECK_MESSAGE(second.starts_with(set + "1."), second);
    CHECK_MESSAGE(second.find(doubt + "3.") != std::string::npos, second);
    CHECK_FALSE(one.day->clock_is_right);
    CHECK(one.counts("clock_steps_total 2"));
    CHECK(one.day->take_steps().size() == 2);
    CHECK(one.day->take_steps().empty());
    const auto set_by = one.day->clock_was_set_by();
    CHECK(set_by > 2s);
    CHECK(set_by < 3800ms);
    CHECK_FALSE(one.status->stopping().stop_requested());
    OneDay back;
    back.day->look_at_clock();
    back.told();
    back.clock.move(-3s);
    back.day->look_at_clock();
    CHECK_FALSE(back.day->clock_is_right);
    CHECK(back.told().starts_with("error clock was set by=-3."));
}

// Once, and once where there is room again.
TEST_CASE("the reserve on the log's disk") {
    OneDay full("north", std::uint64_t{1} << 62);
    full.day->look_at_disk();
    const std::string told = full.told();
    CHECK_MESSAGE(told.starts_with("error no request and no quote is taken venue=north "
                                   "until=\"there is room on the log's disk\" free="),
                  told);
    CHECK_MESSAGE(told.ends_with(fmt::format(" reserve={}\n", std::uint64_t{1} << 62)), told);
    CHECK(full.counts("log_disk_reserve_reached{venue=\"north\"} 1"));
    full.day->look_at_disk();
    CHECK(full.told() == "");
    OneDay empty;
    empty.day->look_at_disk();
    CHECK(empty.told() == "");
    CHECK(empty.counts("log_disk_reserve_reached 0"));
}

// Who speaks is counted, until its day ends.
TEST_CASE("a day that had its term speaks no more") {
    OneDay one;
    one.metrics.speaks();
    one.day->has_term = true;
    CHECK(one.counts("speaks 1"));
    one.day.reset();
    CHECK(one.counts("speaks 0"));
    OneDay other;
    other.metrics.speaks();
    other.day.reset();
    CHECK(other.counts("speaks 1"));
}

} // namespace gateway::tests
