// A venue's day whose process ends between the gateway's start and the first session, one whose
// process gives more when it is started again, one whose program does not say what it is, and one
// whose first entry somebody has written over.
#define DOCTEST_CONFIG_IMPLEMENT_WITH_MAIN
#include <doctest/doctest.h>

#include "check.h"
#include "common/frame.h"
#include "common/password.h"
#include "config/log_location.h"
#include "day/begin_term.h"
#include "log/checkpoint_file.h"
#include "log/sqlite_statement.h"
#include "recovery/open_day.h"
#include "test_keys.h"

#include <chrono>
#include <csignal>
#include <filesystem>
#include <fstream>
#include <future>
#include <iostream>
#include <memory>
#include <thread>

namespace gateway::tests {

namespace {

using namespace std::chrono_literals;

// Answers each of the first nine messages of F, as the venue does; once more where the file `more`
// stands there. It puts its number down when it starts, and is slow to begin from the second time
// on.
constexpr const char *venue_text = R"sh(
echo $$ >> "$1/starts"
[ "$(wc -l < "$1/starts")" = 1 ] || sleep 1
lines=0 given=0 begun=
while IFS= read -r line; do
    lines=$((lines + 1))
    case $begun$line in
    %%) begun=+ ;;
    +hex*)
        for each in once $([ ! -e "$1/more" ] || echo again); do
            given=$((given + 1))
            body="35=AI|49=VENUE|56=F|34=$given|52=20250314-09:00:00.000|297=9"
            printf 'F 8=FIXT.1.1|9=56|%s|10=%03d|\n' "$body" "$(((74 + given) % 256))"
        done
        echo "done $lines"
        ;;
    +*) echo "done $lines" ;;
    esac
done
)sh";

Config config_of(const std::filesystem::path &folder) {
    std::filesystem::remove_all(folder);
    std::filesystem::create_directories(folder);
    std::ofstream(folder / "venue.sh") << venue_text;
    Config config;
    config.command = {"sh", (folder / "venue.sh").string(), folder.string()};
    config.program = "/bin/sh";
    config.configuration = "version = 1\n";
    config.firms = {today(), {"F"}};
    config.sqlite = folder / "day.db";
    config.credentials["F"] = {"F", new_hash("x"), ""};
    give_keys(config, folder);
    return config;
}

// A day of one message, whose answer left and was lost with the gateway.
Config day_of_a_message(const std::filesystem::path &folder) {
    Config config = config_of(folder);
    Batch batch;
    batch.entries.resize(2);
    Entry &first = batch.entries[0];
    Entry &second = batch.entries[1];
    first.moment = second.moment = "00:00:00.000";
    first.line = line_of({"unknown", Digest{}, config.configuration, ""});
    first.hash = hash_of(first);
    second.place = 1;
    second.firm = "F";
    second.number = 2;
    second.connection = 1;
    second.line = "hex F 00:00:00.000 00";
    second.before = first.hash;
    second.hash = hash_of(second);
    const Sealer sealer = sealer_of(config);
    batch.seal = sealer.seal({0, 1, second.hash, 0, {}, 1, {}});
    CheckpointFile(config.checkpoints, sealer).write(sealer.sign(Checkpoint{}));
    open_sqlite(config.sqlite.string())->writer()->commit(batch);
    return config;
}

std::vector<int> starts_of(const std::filesystem::path &folder) {
    std::ifstream file(folder / "starts");
    std::vector<int> starts;
    for (int start = 0; file >> start;) {
        starts.push_back(start);
    }
    return starts;
}

// Ends the venue's process, and returns once the next one has begun.
void end_venue(const std::filesystem::path &folder) {
    ::kill(starts_of(folder).at(0), SIGKILL);
    const auto latest = std::chrono::steady_clock::now() + 60s;
    while (starts_of(folder).size() < 2) {
        check(std::chrono::steady_clock::now() < latest, "the venue is not started again");
        std::this_thread::sleep_for(10ms);
    }
}

// Whether the venue's first message is where readers look.
bool is_stored(const Config &config) {
    const auto connection = sqlite::connect(config.sqlite.string(), SQLITE_OPEN_READONLY);
    sqlite::Statement row(connection.get(), "SELECT number FROM sent WHERE firm = 'F'");
    return row.step() && row.number(0) == 1;
}

// Such a day, which a gateway leads from now on.
struct LedDay {
    explicit LedDay(const std::filesystem::path &folder) : config(day_of_a_message(folder)) {}

    // As the gateway does: firms may log on from now on.
    void start() {
        engine.add(leader->session_starts());
        leader->start();
    }

    const Config config;
    Metrics metrics;
    const std::shared_ptr<spdlog::logger> events = std::make_shared<spdlog::logger>("none");
    Status status{events};
    OperatorEvents told{metrics, events};
    Engine engine{config.engine, {}, told};
    VenueDay day{config, metrics, status, events, told};
    std::unique_ptr<Leader> leader = begin_term(day, engine, [] { return true; });
};

// What the log lacks has its number before any session may log on.
void given_again_before_sessions(const std::filesystem::path &folder) {
    LedDay led(folder);
    end_venue(folder);
    led.start();
    const bool stored = is_stored(led.config);
    check(stored, "what was sent before is not where readers look");
    check(!led.status.failure(), led.status.failure().value_or(""));
}

// Somebody has changed the log's database meanwhile, or the program is another: a firm is told
// nothing of it.
void more_than_before(const std::filesystem::path &folder) {
    LedDay led(folder);
    led.start();
    std::ofstream(folder / "more") << "";
    end_venue(folder);
    const auto latest = std::chrono::steady_clock::now() + 60s;
    while (!led.status.failure() && std::chrono::steady_clock::now() < latest) {
        std::this_thread::sleep_for(10ms);
    }
    same<std::string>("the venue gives F message 2 for entry 1, which it has answered without it",
                      led.status.failure().value_or("nothing"), "what it fails by");
}

// A program that does anything but end where it is asked for its version: the day begins all the
// same.
void begun_without_a_version(const std::filesystem::path &folder) {
    Config config = config_of(folder);
    config.program = folder / "program";
    std::ofstream(config.program) << "#!/bin/sh\nexec sleep 200\n";
    std::filesystem::permissions(config.program, std::filesystem::perms::owner_all);
    const auto database = open_sqlite(config.sqlite.string());
    DayClock clock(today());
    auto opened = std::async(std::launch::async, [&] {
        LogGuard guard(sealer_of(config), config.checkpoints, nullptr);
        return open_day(config, *database, guard, 0, clock,
                        std::make_shared<spdlog::logger>("none"));
    });
    check(opened.wait_for(60s) == std::future_status::ready, "the program is waited for");
    same<std::string>("unknown", day_of(opened.get().first.line).version, "its version");
}

OpenedDay opened(const Config &config) {
    const auto database = open_sqlite(config.sqlite.string());
    DayClock clock(today());
    const auto events = std::make_shared<spdlog::logger>("none");
    LogGuard guard(sealer_of(config), config.checkpoints, events);
    return open_day(config, *database, guard, 0, clock, events);
}

// Another entry 0 in front of the one that is sealed, which stays the last one. Where columns have
// no type, `0` as a text stands behind the number, and is read as it.
void put_in_front(const Config &config, const Entry &other) {
    const auto file = sqlite::connect(config.sqlite.string(), SQLITE_OPEN_READWRITE);
    std::string line;
    std::string hash;
    append_hexadecimal(line, other.line);
    append_hexadecimal(hash, {reinterpret_cast<const char *>(other.hash.data()), 32});
    const std::string text = fmt::format(
        "CREATE TABLE e ({0}); INSERT INTO e SELECT {0} FROM entry; UPDATE e SET place = '0';"
        "INSERT INTO e SELECT 0, term, moment, received, firm, number, connection, x'{1}', before, "
        "x'{2}' FROM entry; DROP TABLE entry; ALTER TABLE e RENAME TO entry;"
        "CREATE TABLE s (number, term, place, event, notes, hash, mac);"
        "INSERT INTO s SELECT * FROM seal; UPDATE s SET place = '0';"
        "DROP TABLE seal; ALTER TABLE s RENAME TO seal;",
        entry_columns, line, hash);
    sqlite::execute(file.get(), text.c_str());
}

// It has other words for the firms than the sealed one.
void a_first_entry_written_over(const std::filesystem::path &folder) {
    const Config config = config_of(folder);
    Entry other = opened(config).first;
    same(other.place, opened(config).last.place, "the only entry");
    Day day = day_of(other.line);
    check(!day.reasons.empty(), "the day gives no reasons");
    day.reasons.begin()->second = "this quote was accepted";
    other.line = line_of(day);
    other.hash = hash_of(other);
    put_in_front(config, other);
    std::string told = "nothing";
    try {
        opened(config);
    } catch (const std::runtime_error &fault) {
        told = fault.what();
    }
    check(told.ends_with("seal.place has something else than a number from -1 to 4294967294"),
          told);
}

TEST_CASE("given again before sessions") {
    // As the gateway does: the venue may end while it is fed.
    std::signal(SIGPIPE, SIG_IGN);
    const Scratch folder("venue_day");
    given_again_before_sessions(folder.path());
}

TEST_CASE("more than before") {
    // As the gateway does: the venue may end while it is fed.
    std::signal(SIGPIPE, SIG_IGN);
    const Scratch folder("venue_day");
    more_than_before(folder.path());
}

TEST_CASE("a first entry written over") {
    // As the gateway does: the venue may end while it is fed.
    std::signal(SIGPIPE, SIG_IGN);
    const Scratch folder("venue_day");
    a_first_entry_written_over(folder.path());
}

TEST_CASE("begun without a version") {
    // As the gateway does: the venue may end while it is fed.
    std::signal(SIGPIPE, SIG_IGN);
    const Scratch folder("venue_day");
    begun_without_a_version(folder.path());
}

// Before anything of it is made.
TEST_CASE("the day of another date") {
    const Scratch folder("venue_day");
    Config config = config_of(folder.path() / "day");
    config.firms.date = "20200101";
    Metrics metrics;
    const auto events = std::make_shared<spdlog::logger>("none");
    Status status(events);
    OperatorEvents told(metrics, events);
    std::string fault;
    try {
        const VenueDay day(config, metrics, status, events, told);
    } catch (const std::runtime_error &thrown) {
        fault = thrown.what();
    }
    same(fmt::format("the venue's configuration is of 20200101, and today is {} in UTC", today()),
         fault, "why it is not opened");
    check(!std::filesystem::exists(config.sqlite), "its log is made");
}

} // namespace

} // namespace gateway::tests
