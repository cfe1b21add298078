// What a firm is told before its day opens, and the numbers that its session has by then.
#define DOCTEST_CONFIG_IMPLEMENT_WITH_MAIN
#include <doctest/doctest.h>

#include "check.h"
#include "common/password.h"
#include "config/log_location.h"
#include "log/log_guard.h"
#include "log/sqlite_statement.h"
#include "log_days.h"
#include "service/closed_firms.h"
#include "test_keys.h"

#include <chrono>
#include <memory>
#include <stdexcept>
#include <string>

#include <spdlog/sinks/ringbuffer_sink.h>

namespace gateway::tests {

namespace {

using namespace std::chrono_literals;

Config config_of(const std::filesystem::path &folder) {
    Config config;
    config.configuration = "version = 1\n";
    config.firms = {"20250314", {"F", "G"}};
    config.sqlite = folder / "day.db";
    config.credentials["F"] = {"fred", new_hash("right"), ""};
    give_keys(config, folder);
    return config;
}

void execute(const Config &config, const char *statement) {
    sqlite::execute(sqlite::connect(config.sqlite.string(), SQLITE_OPEN_READWRITE).get(),
                    statement);
}

// A Logout under this number, which answers the Logon before `expected`.
SessionEvent logout(std::uint32_t number, std::uint32_t expected, std::size_t replies = 1) {
    SessionEvent event;
    event.numbers.expected = expected;
    SessionNote note;
    note.kind = '5';
    note.number = number;
    note.moment = 7 * 60 * 60 * 1000;
    event.notes.push_back(note);
    event.replies = replies;
    return event;
}

// Behind two Logouts, as a day opens.
SessionNumbers behind_two() {
    SessionNumbers numbers;
    numbers.expected = 3;
    numbers.next = 3;
    numbers.is_one_free = false;
    return numbers;
}

// ---------------------------------------------------------------- their numbers

// Each Logout uses one up, of its firm alone, and they are the same to whoever reads them next.
TEST_CASE("numbers go on behind each Logout") {
    const Scratch folder("closed_firms");
    const Config config = config_of(folder.path());
    {
        EarlyNumbers numbers(config);
        CHECK(numbers.of("F") == SessionNumbers());
        numbers.put("F", logout(1, 2));
        numbers.put("F", logout(2, 3));
        CHECK(numbers.of("F") == behind_two());
        CHECK(numbers.of("G") == SessionNumbers());
    }
    EarlyNumbers numbers(config);
    CHECK(numbers.of("F") == behind_two());
    CHECK(numbers.of("G") == SessionNumbers());
}

// A Logout that could not be put there has not left. What was there is read anew, once.
TEST_CASE("numbers after a log that failed") {
    const Scratch folder("closed_firms");
    const Config config = config_of(folder.path());
    EarlyNumbers numbers(config);
    numbers.put("F", logout(1, 2));
    execute(config, "CREATE UNIQUE INDEX one ON seal (typeof(mac))");
    CHECK_THROWS_WITH_AS(numbers.put("F", logout(2, 3)), doctest::Contains("UNIQUE"),
                         std::runtime_error);
    execute(config, "DROP INDEX one");
    numbers.put("F", logout(2, 3));
    CHECK(numbers.of("F") == behind_two());
}

TEST_CASE("numbers that can't be known") {
    const Scratch folder("closed_firms");
    const Config config = config_of(folder.path());
    const auto why = [&config] {
        try {
            EarlyNumbers(config).of("F");
            return std::string();
        } catch (const std::runtime_error &fault) {
            return std::string(fault.what());
        }
    };
    EarlyNumbers(config).put("F", logout(1, 2));
    CHECK(why() == "");
    execute(config, "UPDATE seal SET mac = zeroblob(32)");
    CHECK(why() == "the log was changed before the day opened: seal 1 is not that of this venue's "
                   "gateways, for this day, its configuration and what stands there");
    begin_day(*open_sqlite(config.sqlite.string()));
    CHECK(why() == "the day has begun at another gateway");
}

// ---------------------------------------------------------------- a log that was cut off

// Whoever may write to the database takes the last Logouts out, and each sum that is left is right.
void cut(const Config &config, unsigned left) {
    execute(config, fmt::format("DELETE FROM seal WHERE number > {}", left).c_str());
}

// Why a gateway does not begin the day with the log as it is; empty where it does.
std::string why_not_begun(const Config &config) {
    const auto database = open_sqlite(config.sqlite.string());
    Entry first;
    first.moment = "08:00:00.000";
    first.line = line_of({"program 1", Digest{}, config.configuration, ""});
    first.hash = hash_of(first);
    LogGuard guard(sealer_of(config), config.checkpoints, nullptr);
    try {
        guard.begin(*database->reader(), first);
    } catch (const LogNotAccepted &fault) {
        return fault.what();
    }
    return "";
}

std::string why_not_known(const Config &config) {
    try {
        EarlyNumbers(config).of("F");
    } catch (const LogNotAccepted &fault) {
        return fault.what();
    }
    return "";
}

constexpr const char *not_behind =
    "the log does not go on behind the Logouts that left here before the day opened";

// A firm would be sent their numbers again, and its engine would take none of these messages.
TEST_CASE("the last Logouts are cut off the log") {
    for (const unsigned left : {0U, 1U}) {
        CAPTURE(left);
        const Scratch folder("closed_firms");
        const Config config = config_of(folder.path());
        EarlyNumbers(config).put("F", logout(1, 2));
        EarlyNumbers(config).put("F", logout(2, 3));
        CHECK(why_not_known(config) == "");
        cut(config, left);
        CHECK(why_not_known(config).starts_with(not_behind));
        CHECK(why_not_begun(config).starts_with(not_behind));
        CHECK_FALSE(std::filesystem::exists(config.checkpoints / "day-20250314.checkpoint"));
    }
}

TEST_CASE("a day begins behind all Logouts") {
    const Scratch folder("closed_firms");
    const Config config = config_of(folder.path());
    EarlyNumbers(config).put("F", logout(1, 2));
    CHECK(why_not_begun(config) == "");
    CHECK(std::filesystem::exists(config.checkpoints / "day-20250314.checkpoint"));
}

// An empty log in the place of theirs is not theirs; and another day has none.
TEST_CASE("a day begins without Logouts of its own") {
    const Scratch folder("closed_firms");
    Config config = config_of(folder.path());
    EarlyNumbers(config).put("F", logout(1, 2));
    config.sqlite = folder.path() / "other.db";
    CHECK(why_not_begun(config).starts_with(not_behind));
    config.firms.date = "20250315";
    CHECK(why_not_begun(config) == "");
}

// What another gateway has put in their place is no part of them, and a gateway with a folder of
// its own knows only of what left there: nobody tells it.
TEST_CASE("other Logouts in the place of those that were cut off") {
    const Scratch folder("closed_firms");
    const Config config = config_of(folder.path());
    Config other = config;
    other.checkpoints = folder.path() / "other";
    EarlyNumbers(config).put("F", logout(1, 2));
    EarlyNumbers(config).put("F", logout(2, 3));
    cut(config, 1);
    EarlyNumbers(other).put("G", logout(1, 2));
    CHECK(why_not_known(other) == "");
    CHECK(why_not_known(config).starts_with(not_behind));
    EarlyNumbers(other).put("G", logout(2, 3));
    CHECK(why_not_known(config).starts_with(not_behind));
}

// An operator accepts it, as each other loss.
TEST_CASE("the loss of Logouts is accepted") {
    const Scratch folder("closed_firms");
    const Config config = config_of(folder.path());
    EarlyNumbers(config).put("F", logout(1, 2));
    cut(config, 0);
    {
        LogGuard guard(sealer_of(config), config.checkpoints, nullptr);
        const auto database = open_sqlite(config.sqlite.string());
        guard.accept(*database->reader(), [](const Entry &) {});
    }
    CHECK(why_not_known(config) == "");
}

// A Logout whose place can't be kept does not leave; its number is used up.
TEST_CASE("numbers whose file can't be written") {
    const Scratch folder("closed_firms");
    const Config config = config_of(folder.path());
    EarlyNumbers numbers(config);
    numbers.put("F", logout(1, 2));
    const std::filesystem::path file = config.checkpoints / "day-20250314.early";
    std::filesystem::rename(file, folder.path() / "away");
    std::filesystem::create_directory(file);
    CHECK_THROWS_AS(numbers.put("F", logout(2, 3)), std::runtime_error);
    std::filesystem::remove(file);
    std::filesystem::rename(folder.path() / "away", file);
    CHECK(numbers.of("F") == behind_two());
}

// ---------------------------------------------------------------- what they are told

constexpr const char *closed = "the venue is closed: it opens at 20250314-08:00:00 UTC";

// The firms of a venue that opens at eight, and what its operator is told.
struct ClosedScene {
    explicit ClosedScene(bool is_safe)
        : firms(config, midnight_of("20250314") + 8h, is_safe, metrics, told) {}

    const Scratch folder{"closed_firms"};
    const Config config = config_of(folder.path());
    const std::shared_ptr<spdlog::sinks::ringbuffer_sink_mt> lines =
        std::make_shared<spdlog::sinks::ringbuffer_sink_mt>(9);
    Metrics metrics;
    OperatorEvents told{metrics, std::make_shared<spdlog::logger>("told", lines)};
    ClosedFirms firms;
};

// Whether the firm is told by a Logout, whose words are the same anyway.
bool has_logout(ClosedScene &scene, const std::string &firm) {
    const std::optional<NotOpen> told = scene.firms.not_open(firm);
    REQUIRE(told);
    CHECK(told->text == closed);
    return told->numbers.has_value();
}

TEST_CASE("a Logout where it is safe") {
    ClosedScene scene(true);
    REQUIRE(has_logout(scene, "F"));
    CHECK(scene.firms.not_open("F")->numbers == SessionNumbers());
    scene.firms.put("F", logout(1, 2));
    scene.firms.put("F", logout(2, 3));
    CHECK(scene.firms.not_open("F")->numbers == behind_two());
    ClosedScene other(false);
    CHECK_FALSE(has_logout(other, "F"));
    CHECK(scene.lines->last_raw().empty());
}

// A thousand at once, of each firm; the next one is told nothing until the rate allows it.
TEST_CASE("no Logout above the rate of a firm") {
    ClosedScene scene(true);
    scene.firms.put("F", logout(1, 2, 1000));
    CHECK(has_logout(scene, "F"));
    scene.firms.put("F", logout(2, 3, 1000));
    CHECK_FALSE(has_logout(scene, "F"));
    CHECK(has_logout(scene, "G"));
}

// The operator is told why.
TEST_CASE("no Logout without the log") {
    ClosedScene scene(true);
    const auto other = open_sqlite(scene.config.sqlite.string());
    CHECK_FALSE(has_logout(scene, "F"));
    const auto lines = scene.lines->last_raw();
    REQUIRE(lines.size() == 1);
    const std::string line(lines[0].payload.data(), lines[0].payload.size());
    CHECK_MESSAGE(line.find("no Logout") != std::string::npos, line);
    CHECK_MESSAGE(line.find("day.db") != std::string::npos, line);
}

TEST_CASE("no Logout behind one that was cut off") {
    ClosedScene scene(true);
    EarlyNumbers(scene.config).put("F", logout(1, 2));
    cut(scene.config, 0);
    CHECK_FALSE(has_logout(scene, "F"));
    const auto lines = scene.lines->last_raw();
    REQUIRE(lines.size() == 1);
    const std::string line(lines[0].payload.data(), lines[0].payload.size());
    CHECK_MESSAGE(line.find(not_behind) != std::string::npos, line);
}

// As on a day; and nobody logs on.
TEST_CASE("a password before the day opens") {
    ClosedScene scene(true);
    CHECK(scene.firms.judge({"F", "fred", "right", false, "", ""}) == Refusal::none);
    CHECK(scene.metrics.text().find("mireseason_wrong_passwords_total{firm=\"F\"} 1") ==
          std::string::npos);
    CHECK(scene.firms.judge({"F", "fred", "other", false, "", ""}) == Refusal::wrong_password);
    CHECK(scene.metrics.text().find("mireseason_wrong_passwords_total{firm=\"F\"} 1") !=
          std::string::npos);
    CHECK_THROWS_AS(scene.firms.logon_accepted("F", {}), std::runtime_error);
    CHECK_THROWS_AS(scene.firms.take("F", {}, {}), std::runtime_error);
}

// ---------------------------------------------------------------- where it is safe

// London's week: Friday 27 November 2026 ends at 17:30, and Monday is next.
TEST_CASE("a day that has ended on its date") {
    DayRules rules;
    rules.zone = "Europe/London";
    rules.opens = 8h;
    rules.ends = 17h + 30min;
    rules.weekdays = {1, 2, 3, 4, 5};
    rules.holidays = {"2026-11-26"};
    const SystemSeconds thursday = midnight_of("20261126");
    const SystemSeconds friday = thursday + 24h;
    const auto has_ended = [&rules](SystemSeconds now) {
        return has_ended_on_its_date(rules, TradingDays(rules, now).first_after(now), now);
    };
    CHECK_FALSE(has_ended(thursday + 12h));
    CHECK_FALSE(has_ended(friday));
    CHECK_FALSE(has_ended(friday + 7h));
    CHECK_FALSE(has_ended(friday + 17h + 30min - 1s));
    CHECK(has_ended(friday + 17h + 30min));
    CHECK(has_ended(friday + 24h - 1s));
    CHECK_FALSE(has_ended(friday + 24h));
}

} // namespace

} // namespace gateway::tests
