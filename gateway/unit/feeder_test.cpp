// Tests what feeds the venue: the log from its begin, entries as they are committed, a process that
// reads nothing for a while, a broken chain, what somebody has written into the database, also
// while no process was fed, how much is kept, and how a process ends.
#define DOCTEST_CONFIG_IMPLEMENT_WITH_MAIN
#include <doctest/doctest.h>

#include "check.h"
#include "log/sqlite_statement.h"
#include "venue/feeder.h"

#include <chrono>
#include <filesystem>
#include <future>
#include <iostream>
#include <thread>

namespace gateway::tests {

namespace {

constexpr std::uint32_t old = 2000; // entries that are in the database alone

Entry behind(const Entry &before) {
    Entry entry;
    entry.place = before.place + 1;
    entry.moment = "09:00:00.000";
    entry.line = fmt::format("line {} {}", entry.place, std::string(200, 'x'));
    entry.before = before.hash;
    entry.hash = hash_of(entry);
    return entry;
}

// Whoever may write to the database, and has no key, makes its hash right.
Entry forged(Entry entry) {
    entry.line = fmt::format("fake {} {}", entry.place, std::string(200, 'y'));
    entry.hash = hash_of(entry);
    return entry;
}

// A log, and what a process has to be given of it. The database may have another entry than the
// log in the place of its last one.
class Source {
  public:
    explicit Source(const std::string &file, bool is_last_forged = false)
        : file_(file), database_(open_sqlite(file)), entry_feed_(old) {
        last_.line = "day";
        last_.hash = hash_of(last_);
        first_hash_ = last_.hash;
        Batch batch;
        batch.entries.push_back(last_);
        for (std::uint32_t count = 0; count < old; ++count) {
            batch.entries.push_back(next());
        }
        if (is_last_forged) {
            batch.entries.back() = forged(batch.entries.back());
        }
        database_->writer()->commit(batch);
    }

    void put(std::uint32_t count) { entry_feed_.put(next_ones(count)); }
    // The same of entries that the database has, too.
    void put_stored(std::uint32_t count) {
        const std::vector<LoggedEntry> entries = next_ones(count);
        Batch batch;
        for (const LoggedEntry &logged : entries) {
            batch.entries.push_back(logged.entry);
        }
        database_->writer()->commit(batch);
        entry_feed_.put(entries);
    }
    // Somebody changes an entry in the database, and makes all hashes behind it right.
    void change(std::uint32_t place) {
        Batch batch;
        batch.entries = database_->reader()->entries(place, last_.place);
        batch.entries[0] = forged(batch.entries[0]);
        Digest before = batch.entries[0].before;
        for (Entry &entry : batch.entries) {
            entry.before = before;
            entry.hash = before = hash_of(entry);
        }
        cut(place);
        database_->writer()->commit(batch);
    }
    // Somebody takes out all from a place on.
    void cut(std::uint32_t place) {
        sqlite::execute(sqlite::connect(file_, SQLITE_OPEN_READWRITE).get(),
                        fmt::format("DELETE FROM entry WHERE place >= {}", place).c_str());
    }
    // In the database alone.
    void forge_next() {
        Batch batch;
        batch.entries.push_back(forged(behind(last_)));
        database_->writer()->commit(batch);
    }
    // An entry that does not follow on the last one.
    void put_stranger() {
        Entry entry = behind(last_);
        entry.before = Digest{};
        entry_feed_.put({{entry, {}}});
    }

    Feeder::Log log() { return {*database_, entry_feed_, first_hash_}; }
    const std::string &text() const { return text_; }
    std::string text_up_to(std::uint32_t place) const {
        return text_.substr(0, text_.find(fmt::format("line {} ", place + 1)));
    }
    std::uint32_t last_place() const { return last_.place; }

  private:
    std::vector<LoggedEntry> next_ones(std::uint32_t count) {
        std::vector<LoggedEntry> entries;
        for (std::uint32_t each = 0; each < count; ++each) {
            entries.push_back({next(), {}});
        }
        return entries;
    }
    Entry next() {
        last_ = behind(last_);
        text_ += last_.line + "\n";
        return last_;
    }

    const std::string file_;
    std::unique_ptr<Database> database_;
    EntryFeed entry_feed_;
    Entry last_;
    Digest first_hash_{};
    std::string text_ = "head\n";
};

std::string read_some(Process &process, std::size_t size) {
    std::string text;
    while (text.size() < size) {
        const std::string bytes = process.read_output();
        check(!bytes.empty(), "the process has ended");
        text += bytes;
    }
    return text;
}

std::string read_all(Process &process) {
    std::string came;
    for (std::string some = process.read_output(); !some.empty(); some = process.read_output()) {
        came += some;
    }
    return came;
}

// A process is fed no more than the log up to this place, and its feeder ends with these words.
void fed_up_to(Source &source, std::uint32_t place, const std::string &words) {
    const std::string expected = source.text_up_to(place);
    Process process({"cat"});
    Feeder feeder(process, source.log(), "head\n", [](const std::vector<LoggedEntry> &) {});
    std::string came = read_some(process, expected.size());
    if (came == expected) {
        came += process.read_output();
    }
    process.kill(); // it may be fed without end
    check(came == expected, "the process was given something else");
    same<std::string>(words, feeder.end(), "its end");
}

void fed_as_it_comes(const std::string &file) {
    Source source(file);
    Process process({"cat"});
    std::uint32_t told = 0;
    Feeder feeder(process, source.log(), "head\n", [&](const std::vector<LoggedEntry> &entries) {
        same(told + 1, entries.front().entry.place, "the next entry");
        told = entries.back().entry.place;
    });
    std::string came = read_some(process, source.text().size());
    for (int count = 0; count < 100; ++count) {
        source.put(1 + count % 3);
        came += read_some(process, source.text().size() - came.size());
    }
    // More than the pipes and `cat` take: whoever puts it goes on.
    for (int count = 0; count < 1000; ++count) {
        source.put(3);
    }
    came += read_some(process, source.text().size() - came.size());
    same<std::string>("", feeder.end(), "a fault");
    check(process.read_output().empty(), "the input has not ended");
    check(came == source.text(), "the process was given something else");
    same(source.last_place(), told, "the last entry that was told");
}

void a_broken_chain(const std::string &file) {
    Source source(file);
    Process process({"cat"});
    Feeder feeder(process, source.log(), "head\n", [](const std::vector<LoggedEntry> &) {});
    read_some(process, source.text().size());
    source.put_stranger();
    check(process.read_output().empty(), "a line of another log was fed");
    const std::string fault = feeder.end();
    check(fault.find(fmt::format("entry {}", old + 1)) != std::string::npos, "told: " + fault);
}

// It stands behind the last entry of the log as its gateway has it, which comes only then.
void an_entry_put_behind(const std::string &file) {
    Source source(file);
    source.forge_next();
    Process process({"cat"});
    Feeder feeder(process, source.log(), "head\n", [](const std::vector<LoggedEntry> &) {});
    std::string came = read_some(process, source.text().size());
    source.put(1);
    came += read_some(process, source.text().size() - came.size());
    check(came == source.text(), "the process was given something else");
    same<std::string>("", feeder.end(), "a fault");
}

// The entries that are kept say which one has to stand in front of them.
void an_entry_put_in_front(const std::string &file) {
    Source source(file, true);
    source.put(3);
    Process process({"cat"});
    Feeder feeder(process, source.log(), "head\n", [](const std::vector<LoggedEntry> &) {});
    check(read_all(process).find("fake") == std::string::npos,
          "an entry was fed that the log has not");
    const std::string fault = feeder.end();
    check(fault.find(fmt::format("entry {}", old + 1)) != std::string::npos, "told: " + fault);
}

// A log of which this gateway has read each piece, for a process that has ended.
void feed_once(Source &source) {
    Process process({"cat"});
    Feeder feeder(process, source.log(), "head\n", [](const std::vector<LoggedEntry> &) {});
    read_some(process, source.text().size());
    same<std::string>("", feeder.end(), "a fault");
}

// A piece ends at each 256th place, and nothing of it is fed where it ends otherwise than before.
void a_piece_changed_since_it_was_read(const std::string &file) {
    Source source(file);
    feed_once(source);
    source.change(700);
    fed_up_to(source, 512, "entry 769 does not follow on entry 768 as it is now");
    source.cut(600);
    fed_up_to(source, 512, "the log has no entry 600");
}

// Of those that were put none was read yet; the last 8,192 are kept.
void a_piece_changed_since_it_was_put(const std::string &file) {
    Source source(file);
    source.put_stored(9000);
    source.change(old + 100);
    fed_up_to(source, 2048, "entry 2305 does not follow on entry 2304 as it is now");
}

// Of long lines few are kept: a slower venue reads them from the database.
TEST_CASE("kept by their bytes") {
    EntryFeed feed(0);
    for (std::uint32_t place = 1; place <= 10; ++place) {
        Entry entry;
        entry.place = place;
        entry.line.assign(1 << 20, 'x');
        feed.put({{entry, {}}});
    }
    check(!feed.from(1), "10 MiB are kept");
    same<std::size_t>(2, feed.from(9).value().size(), "the last two");
    check(feed.from(11).value().empty(), "an entry that is still to come");
}

// One that is killed ends with what it has started, which has the same output.
TEST_CASE("killed with its own") {
    Process process({"sh", "-c", "sleep 200 & echo; wait"});
    read_some(process, 1);
    process.kill();
    auto rest = std::async(std::launch::async, [&] { return process.read_output(); });
    check(rest.wait_for(std::chrono::seconds(60)) == std::future_status::ready,
          "the output of a process that was killed does not end");
    check(rest.get().empty(), "it says something more");
}

// One whose output has ended, and that goes on: it is given its time, and then killed.
TEST_CASE("ended in time") {
    Process lasting({"sh", "-c", "exec sleep 200 >&- 2>&-"});
    check(lasting.read_output().empty(), "it says something");
    check(!lasting.end_within(std::chrono::milliseconds(1)), "it has ended by itself");
    same<std::string>("was ended by signal 9", lasting.wait(), "its end");
    check(lasting.end_within(std::chrono::seconds(60)), "it has not ended");
    Process soon({"sh", "-c", "exit 3"});
    check(soon.end_within(std::chrono::seconds(60)), "it does not end by itself");
    same<std::string>("ended with status 3", soon.wait(), "its end");
}

// Where a day's log is made, and gone with the test.
struct DayFile {
    const Scratch folder{"feeder"};
    const std::filesystem::path path = folder.path() / "day.db";
};

TEST_CASE_FIXTURE(DayFile, "fed as it comes") {
    fed_as_it_comes(path);
}

TEST_CASE_FIXTURE(DayFile, "a broken chain") {
    a_broken_chain(path);
}

TEST_CASE_FIXTURE(DayFile, "an entry put behind") {
    an_entry_put_behind(path);
}

TEST_CASE_FIXTURE(DayFile, "an entry put in front") {
    an_entry_put_in_front(path);
}

TEST_CASE_FIXTURE(DayFile, "a piece changed since it was read") {
    a_piece_changed_since_it_was_read(path);
}

TEST_CASE_FIXTURE(DayFile, "a piece changed since it was put") {
    a_piece_changed_since_it_was_put(path);
}

} // namespace

} // namespace gateway::tests
