// A gateway that follows looks at the log again and again: when it takes over, and what an operator
// is told of a database that is away.
#define DOCTEST_CONFIG_IMPLEMENT_WITH_MAIN
#include <doctest/doctest.h>

#include "check.h"
#include "log/database.h"
#include "recovery/log_watch.h"

#include <deque>
#include <memory>
#include <optional>
#include <sstream>
#include <stdexcept>
#include <stop_token>
#include <string>

#include <spdlog/logger.h>
#include <spdlog/sinks/ostream_sink.h>

namespace gateway::tests {

// A file of SQLite in which another gateway speaks, until it is gone.
class Followed final : public Database {
  public:
    std::unique_ptr<LogReader> reader() override {
        ++readers;
        return file_->reader();
    }
    std::optional<std::uint32_t> take_over() override {
        ++asked;
        return is_gone ? std::optional<std::uint32_t>(7) : std::nullopt;
    }
    std::unique_ptr<LogWriter> writer() override { return nullptr; }

    bool is_gone = false;
    int readers = 0;
    int asked = 0;

  private:
    const Scratch folder_{"log_watch"};
    const std::unique_ptr<Database> file_ = open_sqlite((folder_.path() / "day.db").string());
};

struct Watched {
    Watched() {
        auto sink = std::make_shared<spdlog::sinks::ostream_sink_mt>(told);
        sink->set_pattern("%v");
        events = std::make_shared<spdlog::logger>("events", sink);
    }

    Followed database;
    std::ostringstream told;
    std::shared_ptr<spdlog::logger> events;
    std::stop_source stop;
};

TEST_CASE("it takes over once it may and the other gateway is gone") {
    Watched one;
    int looks = 0;
    LogWatch watch(one.database, one.events, [&looks] { return looks > 2; });
    CHECK(watch.watch(one.stop.get_token(), [&](LogReader &) {
        one.database.is_gone = ++looks == 5;
        return false;
    }));
    CHECK(looks == 5);
    CHECK(one.database.asked == 3); // not before it may
    CHECK(one.database.readers == 1);
    CHECK(watch.term() == 7U);
    CHECK(one.told.str() == "");
}

TEST_CASE("what it looks for is there") {
    Watched one;
    LogWatch watch(one.database, one.events, [] { return true; });
    one.database.is_gone = true;
    CHECK(watch.watch(one.stop.get_token(), [](LogReader &) { return true; }));
    CHECK_FALSE(watch.term());
    CHECK(one.database.asked == 0);
}

TEST_CASE("it is to stop") {
    Watched one;
    LogWatch watch(one.database, one.events, [] { return true; });
    int looks = 0;
    CHECK_FALSE(watch.watch(one.stop.get_token(), [&](LogReader &) {
        if (++looks == 2) {
            one.stop.request_stop();
        }
        return false;
    }));
    CHECK(looks == 2);
    CHECK_FALSE(watch.term());
}

// Each cause once, and again when the database was back meanwhile.
TEST_CASE("a database that is away is told") {
    Watched one;
    LogWatch watch(one.database, one.events, [] { return true; });
    std::deque<std::string> faults = {"a", "a", "b", "a", "", "a", "a", ""};
    CHECK(watch.watch(one.stop.get_token(), [&](LogReader &) {
        const std::string fault = faults.front();
        faults.pop_front();
        if (!fault.empty()) {
            throw DatabaseAway(fault);
        }
        return faults.empty();
    }));
    CHECK(one.told.str() == "the log is away cause=\"a\"\nthe log is away cause=\"b\"\n"
                            "the log is away cause=\"a\"\nthe log is away cause=\"a\"\n");
    CHECK(one.database.readers == 7); // another connection behind each fault
    CHECK(one.database.asked == 1);   // by the one look that found it
}

TEST_CASE("what is wrong with the log ends it") {
    Watched one;
    LogWatch watch(one.database, one.events, [] { return true; });
    CHECK_THROWS_AS(watch.watch(one.stop.get_token(),
                                [](LogReader &) -> bool { throw std::runtime_error("changed"); }),
                    std::runtime_error);
    CHECK(one.told.str() == "");
}

} // namespace gateway::tests
