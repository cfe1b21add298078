// Days that have ended: which are copied, which logs are removed then, and what keeps one.
#define DOCTEST_CONFIG_IMPLEMENT_WITH_MAIN
#include <doctest/doctest.h>

#include "base/digest.h"
#include "base/file_copy.h"
#include "check.h"
#include "log_days.h"
#include "service/day_copies.h"

#include <chrono>
#include <filesystem>
#include <fstream>
#include <memory>
#include <set>
#include <stop_token>
#include <string>
#include <vector>

#include <spdlog/sinks/ringbuffer_sink.h>

namespace gateway::tests {

namespace {

namespace fs = std::filesystem;
using Dates = std::vector<std::string>;

// A folder of logs, and a place of copies.
struct Days {
    Days() {
        for (const char *name : {"logs", "copies", "checkpoints", "sealed"}) {
            fs::create_directory(folder.path() / name);
        }
        config.log_files = folder.path() / "logs" / "day-{date}.db";
        config.copies = folder.path() / "copies";
        config.checkpoints = folder.path() / "checkpoints";
        config.program = folder.path() / "venue";
    }

    fs::path log_of(const std::string &date) const {
        return folder.path() / "logs" / ("day-" + date + ".db");
    }
    // A day that has entry 0.
    void begin(const std::string &date) const { begin_day(*open_sqlite(log_of(date).string())); }
    std::size_t copy(const std::string &before = "20250314") const {
        return DayCopies(config, std::make_shared<spdlog::logger>("told", lines))
            .make(before, std::stop_token());
    }
    // The days that have a log, and those that have a copy.
    Dates logs() const {
        Dates found;
        for (const char *date : {"20250310", "20250311", "20250312", "20250313", "20250314"}) {
            if (fs::exists(log_of(date))) {
                found.emplace_back(date);
            }
        }
        return found;
    }
    Dates copied() const {
        std::set<std::string> found;
        for (const fs::directory_entry &each : fs::directory_iterator(config.copies)) {
            found.insert(each.path().filename());
        }
        return {found.begin(), found.end()};
    }
    // Whether the operator is told this.
    bool is_told(const std::string &words) const {
        for (const std::string &line : lines->last_formatted()) {
            if (line.find(words) != std::string::npos) {
                return true;
            }
        }
        return false;
    }
    // As a keeper tells that it has sealed the day with this log.
    void seal(const std::string &date, const Digest &log) const {
        const std::string name = log_of(date).filename();
        std::ofstream(folder.path() / "sealed" / date)
            << fmt::format("{0}  {1}\n{0}  {1}.seal\n", text_of(log), name);
    }
    Digest sum_of(const std::string &date) const {
        return sha256_of_file(log_of(date), std::stop_token());
    }

    const Scratch folder{"day_copies"};
    const std::shared_ptr<spdlog::sinks::ringbuffer_sink_mt> lines =
        std::make_shared<spdlog::sinks::ringbuffer_sink_mt>(50);
    Config config;
};

const Dates three = {"20250310", "20250311", "20250312"};

} // namespace

// Each that has ended once; the logs of all but the last ones go, and never that of a day that has
// not ended.
TEST_CASE("days that are copied, and logs that go") {
    Days days;
    for (const std::string &date : three) {
        days.begin(date);
    }
    days.begin("20250314");
    const fs::path early = days.config.checkpoints / "day-20250310.early";
    std::ofstream(early) << "kept";
    CHECK(days.copy() == 0);
    CHECK(days.copied() == three);
    CHECK(days.logs() == Dates{"20250310", "20250311", "20250312", "20250314"});
    CHECK_FALSE(days.is_told("log removed"));
    days.config.keep = 4;
    CHECK(days.copy() == 0);
    CHECK(days.logs().size() == 4);
    days.config.keep = 3;
    CHECK(days.copy() == 0);
    CHECK(days.logs().size() == 4);
    CHECK(fs::exists(early));
    days.config.keep = 2;
    CHECK(days.copy() == 0);
    CHECK(days.logs() == Dates{"20250311", "20250312", "20250314"});
    CHECK_FALSE(fs::exists(early));
    CHECK(days.is_told("log removed date=20250310"));
    days.config.keep = 0;
    CHECK(days.copy() == 0);
    CHECK(days.logs() == Dates{"20250314"});
    CHECK(days.copied() == three);
}

// One that never opened is none, and one that can't be read is missing.
TEST_CASE("days that have no copy") {
    Days days;
    open_sqlite(days.log_of("20250310").string());
    std::ofstream(days.log_of("20250311")) << "no database";
    days.begin("20250312");
    CHECK(days.copy() == 1);
    CHECK(days.is_told("day is not copied date=20250311"));
    CHECK_FALSE(days.is_told("20250310"));
    CHECK(days.is_told("day copied date=20250312"));
    days.config.keep = 0;
    CHECK(days.copy() == 1);
    CHECK(days.logs() == Dates{"20250310", "20250311"});
    CHECK(days.is_told("log is not removed date=20250311"));
}

TEST_CASE("a log whose copy is another stays") {
    Days days;
    days.begin("20250310");
    CHECK(days.copy() == 0);
    const fs::path copy = days.config.copies / "20250310" / "day-20250310.db";
    fs::permissions(copy, fs::perms::owner_all);
    std::ofstream(copy, std::ios::app) << "x";
    days.config.keep = 0;
    days.copy();
    CHECK(days.logs() == Dates{"20250310"});
    CHECK(days.is_told("log is not removed date=20250310 cause=\"its copy is another\""));
}

// A day that was opened again is copied again, and the copy before stands beside.
TEST_CASE("a day that went on") {
    Days days;
    days.begin("20250310");
    CHECK(days.copy() == 0);
    CHECK(days.copied() == Dates{"20250310"});
    {
        const auto database = open_sqlite(days.log_of("20250310").string());
        DayThatGoesOn day(*database);
        day.log.append_message("F", came(1), "x");
        day.log.flush();
    }
    const auto copied = fs::last_write_time(days.config.copies / "20250310" / "SHA256SUMS");
    fs::last_write_time(days.log_of("20250310"), copied + std::chrono::seconds(1));
    CHECK(days.copy() == 0);
    CHECK(days.copied() == Dates{"20250310", "20250310.1"});
    CHECK(days.is_told("day went on after it was copied date=20250310"));
}

// By the keeper's list, where there is a keeper.
TEST_CASE("a log that is not sealed stays") {
    Days days;
    days.config.sealed = days.folder.path() / "sealed";
    days.config.keep = 0;
    days.begin("20250310");
    CHECK(days.copy() == 0);
    CHECK(days.logs() == Dates{"20250310"});
    CHECK(days.is_told("cause=\"it is not sealed yet\""));
    CHECK(copies_without_seal(days.config) == 1);
    days.seal("20250310", sha256("another log"));
    days.copy();
    CHECK(days.logs() == Dates{"20250310"});
    CHECK(days.is_told("cause=\"another log was sealed"));
    days.seal("20250310", days.sum_of("20250310"));
    CHECK(copies_without_seal(days.config) == 0);
    days.copy();
    CHECK(days.logs().empty());
}

} // namespace gateway::tests
