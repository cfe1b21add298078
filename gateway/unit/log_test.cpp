// The log: places without a gap from many threads, commits together, the chains, connections and
// their numbers, times of receipt, a commit that fails, a message for which there is no memory,
// what a crash left, and tables of another form.
#define DOCTEST_CONFIG_IMPLEMENT_WITH_MAIN
#include <doctest/doctest.h>

#include "check.h"
#include "common/frame.h"
#include "log/sqlite_statement.h"
#include "log_days.h"
#include "log_schema.h"

#include <atomic>
#include <cstdlib>
#include <filesystem>
#include <iostream>
#include <new>

namespace {

// Allocations that are left to this thread, where they are counted.
thread_local std::optional<int> allocations;

} // namespace

// Not inlined: GCC 12 would take free() for one of another allocation.
[[gnu::noinline]] void *operator new(std::size_t size) {
    if (allocations && --*allocations < 0) {
        throw std::bad_alloc();
    }
    if (void *memory = std::malloc(size)) {
        return memory;
    }
    throw std::bad_alloc();
}

[[gnu::noinline]] void operator delete(void *memory) noexcept {
    std::free(memory);
}

[[gnu::noinline]] void operator delete(void *memory, std::size_t) noexcept {
    std::free(memory);
}

namespace gateway::tests {

namespace {

// A database whose writer fails from some commit on.
class FailingDatabase final : public Database {
  public:
    explicit FailingDatabase(int commits) : commits_(commits) {}
    std::unique_ptr<LogReader> reader() override { return nullptr; }
    std::optional<std::uint32_t> take_over() override { return 0; }
    std::unique_ptr<LogWriter> writer() override { return std::make_unique<Writer>(commits_); }

  private:
    class Writer final : public LogWriter {
      public:
        explicit Writer(int commits) : commits_(commits) {}
        void commit(const Batch &) override {
            if (--commits_ < 0) {
                throw std::runtime_error("no room");
            }
        }
        void be_seen() override {}

      private:
        int commits_;
    };
    int commits_;
};

void check_chain(LogReader &reader, std::uint32_t count) {
    const std::vector<Entry> entries = reader.entries(0, count + 10);
    same<std::size_t>(count + 1, entries.size(), "entries");
    Digest before{};
    std::string moment;
    for (std::uint32_t place = 0; place <= count; ++place) {
        check_link(entries[place], place, before);
        before = entries[place].hash;
        check(entries[place].moment >= moment, "a moment falls");
        moment = entries[place].moment;
    }
}

constexpr std::uint32_t threads = 4;
constexpr std::uint32_t messages = 200;

// A session was given the venue's message of this number; every other one tells the firm something.
Log::SessionChange given(const std::string &firm, std::uint32_t number) {
    const bool tells = number % 2 == 0;
    const auto told = tells ? std::optional<std::string>("58=too late") : std::nullopt;
    return {firm, Sent{firm, number, number, "frame", told}};
}

// Every other thread commits itself, three messages at a time, and leaves the last ones to the log.
void write_from(Log &log, std::uint32_t thread) {
    const std::string firm = fmt::format("F{}", thread);
    const auto committer = thread % 2 == 0 ? Log::Committer::thread : Log::Committer::caller;
    for (std::uint32_t number = 1; number <= messages; ++number) {
        log.append_message(firm, came(number), "x", committer);
        if (committer == Log::Committer::caller && number % 3 == 0) {
            log.commit();
        }
        log.put(given(firm, number));
    }
}

void many_threads(Database &database) {
    DayClock clock(today());
    Metrics metrics;
    Log::Start start;
    start.last = begin_day(database);
    start.term = start.last.term;
    start.waiting = 16;
    {
        EntryFeed feed(0);
        Log log(database, feed, clock, metrics, std::move(start),
                [](const std::string &cause) { std::cerr << cause << '\n'; });
        std::vector<std::jthread> writers;
        for (std::uint32_t thread = 0; thread < threads; ++thread) {
            writers.emplace_back([&log, thread] { write_from(log, thread); });
        }
        writers.clear();
        log.flush();
        check(!log.append_clock_behind(threads * messages - 1, Moment{0}),
              "a sweep after an entry");
        same(threads * messages + 1,
             log.append_clock_behind(threads * messages, Moment{0}).value_or(0),
             "a sweep after the last entry");
    }
    check_chain(*database.reader(), threads * messages + 1);
}

// While messages are held a sweep is not, and they come after it.
void a_held_log(Database &database) {
    DayThatGoesOn day(database);
    Log &log = day.log;
    const std::uint32_t last = day.last;
    std::jthread writer;
    {
        const Log::Hold hold(log, Moment{0});
        writer = std::jthread([&log] { log.append_message("F0", came(messages + 1), "x"); });
        // Until it waits, or has a place, where it is not held.
        while (log.waiting() == 0 && log.last_place() == last) {
            std::this_thread::yield();
        }
        same(last + 1, log.append_clock_behind(last, Moment{0}).value_or(0),
             "a sweep in a held log");
    }
    writer.join();
    log.flush();
    const auto entries = database.reader()->entries(last + 1, 9);
    same<std::size_t>(2, entries.size(), "entries after the hold");
    check(!entries[0].firm && entries[1].firm == "F0", "the message does not come after the sweep");
}

// What the caller commits is in the log when the call returns, and what it does not is soon.
void a_message_alone(Database &database) {
    DayThatGoesOn day(database);
    Log &log = day.log;
    const std::uint32_t last = day.last;
    log.append_message("F0", came(messages + 2), "x", Log::Committer::caller);
    log.commit();
    if (log.commits_since()) {
        // The log's own thread was at it already: on a machine with much else to do.
        log.flush();
    }
    same(last + 1, day.feed.last_place(), "the place that was committed");
    same<std::size_t>(1, database.reader()->entries(last + 1, 9).size(), "entries in the log");
    log.append_message("F0", came(messages + 3), "x", Log::Committer::caller);
    log.flush();
    same(last + 2, day.feed.last_place(), "the place that was left to the log");
}

// Whether a message is taken with so many allocations.
bool is_taken(Log &log, std::uint32_t number, int most) {
    const std::string firm = "F0";
    const std::string frame(100, 'x');
    allocations = most;
    bool taken = true;
    try {
        log.append_message(firm, came(number), frame);
    } catch (const std::bad_alloc &) {
        taken = false;
    }
    allocations.reset();
    return taken;
}

// Wherever memory ends: a message that is not taken leaves no gap, and another is taken after it.
void no_memory(Database &database) {
    DayThatGoesOn day(database);
    int refused = 0;
    while (!is_taken(day.log, messages + 4, refused)) {
        ++refused;
    }
    check(refused > 1, "a message takes no memory");
    day.log.flush();
    const auto entries = database.reader()->entries(day.last + 1, 9);
    same<std::size_t>(1, entries.size(), "entries after those that were not taken");
    check_link(entries[0], day.last + 1, day.start.last.hash);
}

// What the gateway says in a firm's name has the number behind the firm's last message: one that
// was read before it, and comes to the log behind it, stays behind it.
TEST_CASE("what is said in a firm's name stays in front of what comes to the log behind it") {
    const Scratch folder("log");
    const auto database = open_sqlite(folder.path() / "behind.db");
    begin_day(*database);
    DayThatGoesOn day(*database);
    const auto read = std::chrono::system_clock::now();
    const auto say = [&](std::uint32_t number, std::string_view frame) {
        check(day.log.append_at_once("F", {number, 1, read}, frame, Log::Turn()).has_value(),
              "the log has no room");
    };
    say(1, "1");
    day.log.append_act("root(0) cancel F", "F", {"2"});
    say(2, "3");
    day.log.append_message("F", std::nullopt, "4");
    say(3, "5");
    CHECK(day.log.fence() == 6); // with the act
    say(4, "6");
    day.log.commit();
    day.log.flush();
    std::string frames;
    for (const Entry &entry : database->reader()->entries(1, 10)) {
        frames += entry.firm ? frame_of_line(entry.line) : "";
    }
    same<std::string>("123456", frames, "the frames in their order");
}

// Of entries, and by whoever commits them; what is no entry tells nobody.
TEST_CASE("who waits for entries is told that they are on disk") {
    FailingDatabase database(100);
    DayClock clock(today());
    Metrics metrics;
    std::atomic<int> told{0};
    Log::Start start;
    start.stored = [&told] { ++told; };
    {
        EntryFeed feed(0);
        Log log(database, feed, clock, metrics, std::move(start),
                [](const std::string &cause) { std::cerr << cause << '\n'; });
        log.put(given("F", 1));
        log.flush();
        same(0, told.load(), "what is told of a row");
        log.append_message("F", came(1), "x");
        log.flush();
        log.append_message("F", came(2), "x", Log::Committer::caller);
        log.commit();
        log.flush();
    }
    same(2, told.load(), "what is told of two entries");
}

// Keeps what is committed, and counts what else its writer is asked for.
class KeptBatches final : public Database {
  public:
    std::unique_ptr<LogReader> reader() override { return nullptr; }
    std::optional<std::uint32_t> take_over() override { return 0; }
    std::unique_ptr<LogWriter> writer() override { return std::make_unique<Writer>(*this); }

    std::vector<Entry> entries;
    std::atomic<int> seen{0};
    std::atomic<int> rested{0};

  private:
    class Writer final : public LogWriter {
      public:
        explicit Writer(KeptBatches &kept) : kept_(kept) {}
        void commit(const Batch &batch) override {
            kept_.entries.insert(kept_.entries.end(), batch.entries.begin(), batch.entries.end());
        }
        void be_seen() override { ++kept_.seen; }
        void rest() override { ++kept_.rested; }

      private:
        KeptBatches &kept_;
    };
};

// Each second, as another gateway would take over otherwise; and once it uses the lull for what
// need not be done at a commit.
TEST_CASE("a log that has nothing to commit says that it is there") {
    using namespace std::chrono_literals;
    KeptBatches database;
    DayClock clock(today());
    Metrics metrics;
    EntryFeed feed(0);
    const auto begin = std::chrono::steady_clock::now();
    Log log(database, feed, clock, metrics, Log::Start{}, [](const std::string &) {});
    int naps = 0; // as long as a look of the log's thread: a busy machine is late for both
    while (database.seen < 2 && naps < 3000) {
        std::this_thread::sleep_for(20ms);
        ++naps;
    }
    const auto took = std::chrono::steady_clock::now() - begin;
    check(took > 1900ms, "it says so too often");
    check(naps < 500, "it says so too rarely");
    same(1, database.rested.load(), "how often it rests");
    log.wait(log.append_note("act", "x"));
    const auto latest = std::chrono::steady_clock::now() + 60s;
    while (database.rested < 2 && std::chrono::steady_clock::now() < latest) {
        std::this_thread::sleep_for(1ms);
    }
    same(2, database.rested.load(), "and behind a commit");
}

// A line that no message made bears the moment of the line before it where that is later; a message
// keeps that of its receipt.
TEST_CASE("no moment of a line falls") {
    KeptBatches database;
    DayClock clock(today());
    Metrics metrics;
    Log::Start start;
    start.last.place = 4;
    start.last.moment = "23:59:59.998";
    {
        EntryFeed feed(4);
        Log log(database, feed, clock, metrics, std::move(start), [](const std::string &) {});
        log.append_note("act", "x");
        log.append_message("F", came(1), "x");
        log.append_message("F", std::nullopt, "y");
    }
    REQUIRE(database.entries.size() == 3);
    for (const Entry &entry : database.entries) {
        same<std::string>("23:59:59.998", entry.moment, "the moment of " + entry.line);
    }
    same<std::string>("23:59:59.998999", database.entries[0].received, "of a note");
    check(database.entries[1].received < "23:59:59.998", "of a message");
    same<std::string>("23:59:59.998999", database.entries[2].received, "in a firm's name");
}

TEST_CASE("a commit that fails") {
    FailingDatabase database(1);
    DayClock clock(today());
    Metrics metrics;
    std::string told;
    {
        EntryFeed feed(0);
        Log log(database, feed, clock, metrics, Log::Start{},
                [&told](const std::string &cause) { told = cause; });
        log.wait(log.append_message("F", came(1), "x"));
        const auto ticket = log.append_message("F", came(2), "x");
        std::string thrown;
        try {
            log.wait(ticket);
        } catch (const std::runtime_error &fault) {
            thrown = fault.what();
        }
        same<std::string>("the log could not be written: no room", thrown, "the cause");
        thrown.clear();
        try {
            log.append_message("F", came(3), "x");
        } catch (const std::runtime_error &fault) {
            thrown = fault.what();
        }
        check(!thrown.empty(), "a log that failed takes a message");
    }
    same<std::string>("the log could not be written: no room", told, "what is told");
}

TEST_CASE("a commit that fails at its caller") {
    FailingDatabase database(0);
    DayClock clock(today());
    Metrics metrics;
    std::string told;
    {
        EntryFeed feed(0);
        Log log(database, feed, clock, metrics, Log::Start{},
                [&told](const std::string &cause) { told = cause; });
        log.append_message("F", came(1), "x", Log::Committer::caller);
        log.commit();
        check(!log.failure().empty(), "the log has not failed");
        check(feed.is_closed(), "the venue is given more");
        check(!log.is_committed(1), "a commit that failed is taken for one");
    }
    same<std::string>("the log could not be written: no room", told, "what is told");
}

TEST_CASE("changed entries") {
    Entry entry;
    entry.place = 7;
    entry.moment = "09:00:00.000";
    entry.firm = "DLR1";
    entry.number = 3;
    entry.received = "09:00:00.000001";
    entry.connection = 2;
    entry.line = "hex DLR1 09:00:00.000 00";
    entry.hash = hash_of(entry);
    check_link(entry, 7, Digest{});
    const auto told = [&](const Entry &changed) {
        try {
            check_link(changed, 7, Digest{});
        } catch (const std::runtime_error &fault) {
            return std::string(fault.what()).find('7') != std::string::npos;
        }
        return false;
    };
    std::vector<Entry> changed(9, entry);
    changed[0].line[5] = 'X';
    changed[1].moment = "09:00:00.001";
    changed[2].firm = "DLR2";
    changed[3].number.reset();
    changed[4].place = 8;
    changed[5].term = 1;
    changed[6].received = "09:00:00.000002";
    changed[7].connection = 3;
    changed[8].connection.reset();
    for (const Entry &each : changed) {
        check(told(each), "a change that is not seen");
    }
}

// In front of entry 0 there is none.
TEST_CASE("no first entry") {
    Entry entry;
    entry.place = 1;
    std::string told;
    try {
        check_link(entry, 0, Digest{});
    } catch (const std::runtime_error &fault) {
        told = fault.what();
    }
    same<std::string>("the log has no entry 0: after the begin comes entry 1", told, "the cause");
}

// What a gateway that was killed left beside its file stands in the file itself once the log is
// opened.
void after_a_crash(const std::filesystem::path &folder) {
    const std::string file = fresh(folder / "log_crash.db");
    const std::string left = fresh(folder / "log_left.db");
    const std::string alone = fresh(folder / "log_alone.db");
    const auto killed = open_sqlite(file);
    begin_day(*killed);
    for (const char *suffix : {"", "-wal"}) {
        std::filesystem::copy_file(file + suffix, left + suffix);
    }
    const auto opened = open_sqlite(left);
    std::filesystem::copy_file(left, alone);
    const auto connection = sqlite::connect(alone, SQLITE_OPEN_READWRITE);
    sqlite::Statement rows(connection.get(), "SELECT count(*) FROM entry");
    same(1U, rows.step() ? rows.number(0) : 0, "entries in the file");
}

// In a file of SQLite, or where TEST_POSTGRES names a database in a schema there, which stays.
const char *const postgres = std::getenv("TEST_POSTGRES");
unsigned schemas = 0;

std::unique_ptr<Database> database_of(const std::filesystem::path &folder) {
    if (postgres != nullptr) {
        return open_postgres({postgres, log_schema("log_test", ++schemas), "log_test"});
    }
    return open_sqlite(folder / "day.db");
}

// How many rows of the last one these are: `TABLE`, or `TABLE WHERE ..`.
std::uint32_t counted(const std::filesystem::path &folder, const std::string &rows) {
    const std::string text = "SELECT count(*) FROM " + rows;
    if (postgres != nullptr) {
        pqxx::connection connection(postgres);
        pqxx::nontransaction work(connection);
        work.exec("SET search_path TO " + work.quote_name(log_schema("log_test", schemas)));
        return work.exec(text)[0][0].as<std::uint32_t>();
    }
    const auto connection = sqlite::connect(folder / "day.db", SQLITE_OPEN_READWRITE);
    sqlite::Statement count(connection.get(), text);
    return count.step() ? count.number(0) : 0;
}

// What no gateway reads.
void check_copy(const std::filesystem::path &folder) {
    same(threads * messages, counted(folder, "sent WHERE place = number"), "messages");
    same(threads * messages / 2, counted(folder, "sent WHERE told = '58=too late'"),
         "what is told");
    same(threads * messages / 2, counted(folder, "sent WHERE told IS NULL"), "nothing is told");
}

// The gateway before may have put some of them there.
void a_copy_again(Database &database, const std::filesystem::path &folder) {
    Batch batch;
    batch.is_repeated = true;
    for (const std::uint32_t number : {messages, messages + 1}) {
        batch.sent.push_back({"F1", number, number, "frame", "1003=1"});
    }
    database.writer()->commit(batch);
    same(threads * messages + 1, counted(folder, "sent"), "messages, each once");
    same(1U, counted(folder, "sent WHERE told = '1003=1'"), "the one that was not there");
}

// A day that many threads have written.
std::unique_ptr<Database> written_by_many(const std::filesystem::path &folder) {
    auto database = database_of(folder);
    many_threads(*database);
    return database;
}

TEST_CASE("many threads") {
    const Scratch folder("log");
    const auto database = written_by_many(folder.path());
    check_copy(folder.path());
    a_copy_again(*database, folder.path());
}

TEST_CASE("a held log") {
    const Scratch folder("log");
    a_held_log(*written_by_many(folder.path()));
}

TEST_CASE("a message alone") {
    const Scratch folder("log");
    a_message_alone(*written_by_many(folder.path()));
}

TEST_CASE("no memory") {
    const Scratch folder("log");
    no_memory(*written_by_many(folder.path()));
}

TEST_CASE("after a crash") {
    const Scratch folder("log");
    after_a_crash(folder.path());
}

} // namespace

} // namespace gateway::tests
