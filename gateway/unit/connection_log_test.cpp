// Connections in the log: what happened to them and their numbers, which connection a message came
// on and when, a log of another form, and how each row is read.
#define DOCTEST_CONFIG_IMPLEMENT_WITH_MAIN
#include <doctest/doctest.h>

#include "log/sqlite_statement.h"
#include "log_days.h"
#include "log_schema.h"
#include "room_of_day.h"

#include <algorithm>
#include <cstdlib>
#include <optional>
#include <string>
#include <vector>

#include <fmt/ranges.h>

namespace gateway::tests {

namespace {

using namespace std::chrono_literals;
using namespace std::string_literals;

ConnectionEvent event_of(const char *event, std::optional<std::uint32_t> number) {
    ConnectionEvent made;
    made.event = event;
    made.number = number;
    made.firm = "F0";
    made.address = "127.0.0.1:5001";
    made.certificate = "F0";
    if (made.event != connection_events::logon) {
        made.why = "closed";
        made.left_out = 7;
    }
    return made;
}

void check_event(const ConnectionEvent &event, const ConnectionEvent &put, std::uint32_t place,
                 std::uint32_t entry) {
    same(place, event.place, "the place of an event");
    same(entry, event.entry, "the last entry before it");
    check(event.hash == hash_of(event), "an event has another hash");
    check(event.event == put.event && event.firm == put.firm && event.address == put.address &&
              event.certificate == put.certificate && event.why == put.why &&
              event.left_out == put.left_out,
          "an event is not what was put");
    check(exact_moment_of(event.moment).has_value(), "its moment is none: " + event.moment);
}

// A Logon's row is on disk with the first entry that names it, also where entries are committed
// alone: as they are soon after the rows of all.
void connections(Database &database) {
    std::uint32_t open = 0;
    {
        DayThatGoesOn day(database);
        for (std::uint32_t number = 1; number <= 5; ++number) {
            const ConnectionEvent logon = event_of(connection_events::logon, {});
            same(number, day.log.put_connection(logon), "the number of a connection");
            Log::Came message = came(number);
            message.connection = number;
            day.log.append_message("F0", message, "x", Log::Committer::caller);
            day.log.commit();
            const ConnectionState state = connections_in(*database.reader());
            same(number, state.greatest, "the greatest number");
            check_event(state.last.value(), logon, 2 * number - 1, day.last + number - 1);
            same(number, database.reader()->last_entry()->connection.value_or(0), "of the entry");
            const ConnectionEvent end = event_of(connection_events::end, number);
            same(0U, day.log.put_connection(end), "the number of an end");
            day.log.flush();
            check_event(connections_in(*database.reader()).last.value(), end, 2 * number,
                        day.last + number);
        }
        check(connections_in(*database.reader()).open.empty(),
              "a connection that has ended is open");
        open = day.log.put_connection(event_of(connection_events::logon, {}));
    }
    const ConnectionState state = connections_in(*database.reader());
    same<std::size_t>(1, state.open.size(), "connections without an end");
    same(open, state.open.at(0).number.value_or(0), "the one without an end");
    DayThatGoesOn again(database);
    same(open + 1, again.log.put_connection(event_of(connection_events::logon, {})),
         "the number of the first connection after a start");
    again.log.flush();
    check(connections_in(*database.reader()).last->before == state.last->hash,
          "an event does not follow on the one before a start");
}

// The time of receipt, to the microsecond, and the moment, which is never in a millisecond before.
void times_of_receipt(Database &database) {
    DayThatGoesOn day(database);
    const auto now = std::chrono::system_clock::now();
    // One that came before the last one, and one whose clock was set back behind it.
    for (const auto at : {now, now - 3s, now + 3s, now}) {
        day.log.append_message("F0", Log::Came{6, 1, at}, "x");
        // Each in a batch of its own: within one they stand in the order of receipt.
        day.log.flush();
    }
    check(day.log.append_clock_behind(day.last + 4, Moment{0}).has_value(), "no sweep");
    day.log.flush();
    const auto entries = database.reader()->entries(day.last + 1, 9);
    same<std::size_t>(5, entries.size(), "entries");
    for (const Entry &entry : entries) {
        const auto received = exact_moment_of(entry.received);
        const auto moment = moment_of(entry.moment);
        check(received && moment && received->cut() <= *moment, "a receipt after its moment");
    }
    check(entries[1].received < entries[0].received, "an earlier receipt is not told");
    check(entries[3].received == entries[0].received, "a receipt is not told as it was");
    check(exact_moment_of(entries[4].received)->cut() == moment_of(entries[4].moment),
          "a sweep was made at another moment");
}

TEST_CASE("exact moments") {
    wait_for_room_of_day();
    const ExactMoment moment{((9 * 60 + 5) * 60 + 7) * 1'000'000LL + 80'009};
    same<std::string>("09:05:07.080009", text_of(moment), "a moment");
    same<std::string>("09:05:07.080", text_of(moment.cut()), "its millisecond");
    check(exact_moment_of("09:05:07.080009") == moment, "a moment is read otherwise");
    for (const char *text : {"", "09:05:07.080", "09:05:07.0800090", "24:00:00.000000",
                             "09:05:07.08000x", "09:05:07.0800 9"}) {
        check(!exact_moment_of(text), std::string("no moment is read as one: ") + text);
    }
    DayClock clock(today());
    clock.not_before(ExactMoment{ExactMoment::last});
    const auto now = std::chrono::system_clock::now();
    check(clock.moment_at(now) < ExactMoment{ExactMoment::last}, "a receipt is not told as it was");
    check(clock.moment_at(now - 24h) == ExactMoment{ExactMoment::last},
          "a receipt on another day has a moment of this one");
}

TEST_CASE("changed connections") {
    ConnectionEvent event = event_of(connection_events::end, 3);
    event.place = 4;
    event.moment = "09:00:00.000001";
    event.hash = hash_of(event);
    std::vector<ConnectionEvent> changed(12, event);
    changed[0].place = 5;
    changed[1].term = 1;
    changed[2].moment = "09:00:00.000002";
    changed[3].event = connection_events::logon;
    changed[4].entry = 1;
    changed[5].number = 4;
    changed[6].firm = "F1";
    changed[7].address = "127.0.0.1:5002";
    changed[8].certificate.reset();
    // A byte that moves from one text to the next.
    changed[9].certificate = "F0c";
    changed[9].why = "losed";
    changed[10].left_out = 0;
    changed[11].before[0] = 1;
    for (const ConnectionEvent &each : changed) {
        check(hash_of(each) != event.hash, "a change of an event that is not seen");
    }
}

// Which a gateway of another version has begun.
void another_form(const std::filesystem::path &folder) {
    const std::string file = fresh(folder / "log_form.db");
    begin_day(*open_sqlite(file));
    sqlite::execute(sqlite::connect(file, SQLITE_OPEN_READWRITE).get(),
                    "UPDATE form SET number = 1");
    std::string told;
    try {
        open_sqlite(file);
    } catch (const std::runtime_error &fault) {
        told = fault.what();
    }
    same(file + " has tables of form 1, and this gateway's are of form 6: no day spans two forms, "
                "so it ends with the version of the gateway that began it",
         told, "the cause");
}

// In a file of SQLite, or where TEST_POSTGRES names a database in a schema there, which stays.
std::unique_ptr<Database> database_of(const std::filesystem::path &folder, unsigned number = 0) {
    const char *connection = std::getenv("TEST_POSTGRES");
    if (connection != nullptr) {
        return open_postgres(
            {connection, log_schema("connection_log_test", number), "connection_log_test"});
    }
    return open_sqlite(folder / "day.db");
}

TEST_CASE("connections and times of receipt") {
    wait_for_room_of_day();
    const Scratch folder("connection_log");
    const std::unique_ptr<Database> database = database_of(folder.path());
    begin_day(*database);
    connections(*database);
    times_of_receipt(*database);
}

TEST_CASE("another form") {
    const Scratch folder("connection_log");
    another_form(folder.path());
}

// A commit writes whole pages, and a write-ahead log that has its length is synchronised sooner.
TEST_CASE("a file's pages, and what stands beside it") {
    const Scratch folder("connection_log");
    const std::string file = (folder.path() / "day.db").string();
    const auto database = open_sqlite(file);
    const auto writer = database->writer();
    const auto connection = sqlite::connect(file, SQLITE_OPEN_READONLY);
    sqlite::Statement pages(connection.get(), "PRAGMA page_size");
    check(pages.step() && pages.number(0) == 2048, "a page has another size");
    same<std::uintmax_t>(8 << 20, std::filesystem::file_size(file + "-wal"), "bytes beforehand");
    std::string told;
    try {
        open_sqlite(file);
    } catch (const std::runtime_error &fault) {
        told = fault.what();
    }
    same(fmt::format("another gateway has the log: {}.lock is locked", file), told, "a second one");
}

// ---------------------------------------------------------------- what is read

// Each value of a row is another one than those beside it.
Digest digest_of_byte(unsigned char byte) {
    Digest digest;
    digest.fill(byte);
    return digest;
}

Entry entry_at(std::uint32_t place, std::uint32_t term) {
    Entry entry;
    entry.place = place;
    entry.term = term;
    entry.moment = fmt::format("09:00:00.{:03}", place);
    entry.received = fmt::format("08:59:59.{:06}", place);
    entry.line = "line\\\0"s + std::to_string(place);
    entry.before = digest_of_byte(static_cast<unsigned char>(10 + place));
    entry.hash = digest_of_byte(static_cast<unsigned char>(40 + place));
    if (place % 2 == 1) {
        entry.firm = "F" + std::to_string(place);
        entry.number = 100 + place;
        entry.connection = 200 + place;
    }
    return entry;
}

ConnectionEvent connection_at(std::uint32_t place, std::uint32_t term) {
    ConnectionEvent event;
    event.place = place;
    event.term = term;
    event.moment = fmt::format("09:00:00.{:06}", place);
    event.event = place % 2 == 1 ? connection_events::end : connection_events::left_out;
    event.entry = 300 + place;
    event.address = "192.0.2." + std::to_string(place);
    event.left_out = 400 + place;
    event.before = digest_of_byte(static_cast<unsigned char>(70 + place));
    event.hash = digest_of_byte(static_cast<unsigned char>(100 + place));
    if (place % 2 == 1) {
        event.number = 500 + place;
        event.firm = "F" + std::to_string(place);
        event.certificate = "C" + std::to_string(place);
        event.why = "W" + std::to_string(place);
    }
    return event;
}

bool is(const Entry &one, const Entry &other) {
    return one.place == other.place && one.term == other.term && one.moment == other.moment &&
           one.received == other.received && one.firm == other.firm && one.number == other.number &&
           one.connection == other.connection && one.line == other.line &&
           one.before == other.before && one.hash == other.hash;
}
bool is(const ConnectionEvent &one, const ConnectionEvent &other) {
    return one.place == other.place && one.term == other.term && one.moment == other.moment &&
           one.event == other.event && one.entry == other.entry && one.number == other.number &&
           one.firm == other.firm && one.address == other.address &&
           one.certificate == other.certificate && one.why == other.why &&
           one.left_out == other.left_out && one.before == other.before && one.hash == other.hash;
}
bool is(const Seal &one, const Seal &other) {
    return one.at == other.at && one.mac == other.mac && one.notes == other.notes;
}
template <class Row> bool are(const std::vector<Row> &some, const std::vector<Row> &others) {
    return std::ranges::equal(some, others,
                              [](const Row &one, const Row &other) { return is(one, other); });
}

// As it is read: the hashes are those of the rows that it names.
Position position_at(std::uint32_t term, std::uint32_t place, std::uint32_t event,
                     std::uint32_t seal) {
    Position at{term, place, {}, event, {}, seal, digest_of_byte(130 + seal % 100)};
    at.hash = place == before_day ? Digest{} : entry_at(place, term).hash;
    at.event_hash = event == 0 ? Digest{} : connection_at(event, term).hash;
    return at;
}
Seal seal_at(const Position &at) {
    return {at, digest_of_byte(static_cast<unsigned char>(160 + at.seal)),
            fmt::format("note {0}\nnote {0}\n", at.seal)};
}
Checkpoint checkpoint_at(std::uint32_t number, const Position &at, bool is_end) {
    Checkpoint made;
    made.number = number;
    made.at = at;
    made.is_end = is_end;
    made.signature.fill(static_cast<unsigned char>(190 + number));
    if (number > 1) {
        made.before.fill(static_cast<unsigned char>(189 + number));
    }
    return made;
}

// A batch of notes alone, before the day; a small one; and a large one with all kinds of rows.
std::vector<Batch> batches_of(std::uint32_t term) {
    std::vector<Batch> all(3);
    all[0].notes = {"note 1"};
    all[0].seal = seal_at(position_at(term, before_day, 0, 1));
    all[1].entries = {entry_at(0, term), entry_at(1, term)};
    all[1].sent = {{"F1", 1, 1, "bytes\\\0 1"s, "58=a"}, {"F1", 2, 1, "bytes 2", {}}};
    all[1].seal = seal_at(position_at(term, 1, 0, 2));
    for (std::uint32_t place = 2; place <= 7; ++place) {
        all[2].entries.push_back(entry_at(place, term));
        all[2].sent.push_back({"F2", place, place, fmt::format("bytes {}", place),
                               place == 7 ? std::optional<std::string>("58=b") : std::nullopt});
    }
    all[2].connections = {connection_at(1, term), connection_at(2, term), connection_at(3, term)};
    all[2].seal = seal_at(position_at(term, 7, 3, 3));
    all[2].checkpoints = {checkpoint_at(1, position_at(term, 1, 2, 2), false),
                          checkpoint_at(2, position_at(term, 7, 3, 3), true)};
    return all;
}

TEST_CASE("each row is read as it was put") {
    const Scratch folder("connection_log");
    const std::unique_ptr<Database> database = database_of(folder.path(), 1);
    const std::uint32_t term = database->take_over().value();
    const auto reader = database->reader();
    check(!reader->last_entry() && !reader->last_connection() && !reader->last_checkpoint() &&
              !reader->checkpoint(1) && reader->count_checkpoints() == 0,
          "something is in a log that has not begun");
    const auto writer = database->writer();
    for (const Batch &batch : batches_of(term)) {
        writer->commit(batch);
    }
    std::vector<Entry> entries;
    for (std::uint32_t place = 0; place <= 7; ++place) {
        entries.push_back(entry_at(place, term));
    }
    check(are(reader->entries(0, 99), entries), "entries");
    check(are(reader->entries(3, 2), {entries[3], entries[4]}), "some entries");
    check(is(reader->last_entry().value(), entries[7]), "the last entry");
    const std::vector<ConnectionEvent> events = {connection_at(1, term), connection_at(2, term),
                                                 connection_at(3, term)};
    check(are(reader->connection_events(0, 99), events), "connections");
    check(are(reader->connection_events(2, 1), {events[1]}), "some connections");
    check(is(reader->last_connection().value(), events[2]), "the last connection");
    const std::vector<Seal> seals = {seal_at(position_at(term, before_day, 0, 1)),
                                     seal_at(position_at(term, 1, 0, 2)),
                                     seal_at(position_at(term, 7, 3, 3))};
    check(are(reader->seals(1, 99), seals), "seals");
    check(are(reader->seals(2, 1), {seals[1]}), "some seals");
    const Checkpoint first = checkpoint_at(1, position_at(term, 1, 2, 2), false);
    const Checkpoint last = checkpoint_at(2, position_at(term, 7, 3, 3), true);
    same(2U, reader->count_checkpoints(), "checkpoints");
    check(reader->checkpoint(1) == first, "the first checkpoint");
    check(reader->checkpoint(2) == last, "the second checkpoint");
    check(reader->last_checkpoint() == last, "the last checkpoint");
    check(!reader->checkpoint(3), "a checkpoint that is none");
}

// Of the copy for readers, which no gateway reads: FIRM NUMBER PLACE BYTES TOLD.
std::vector<std::string> sent_rows(const std::filesystem::path &folder) {
    std::vector<std::string> rows;
    const std::string select = "SELECT firm, number, place, bytes, coalesce(told, '-') FROM sent "
                               "ORDER BY firm, number";
    if (const char *connection = std::getenv("TEST_POSTGRES")) {
        pqxx::connection made(connection);
        pqxx::nontransaction work(made);
        work.exec("SET search_path TO " + log_schema("connection_log_test", 2));
        for (const pqxx::row &row : work.exec(select)) {
            rows.push_back(fmt::format("{} {} {} {} {}", row[0].c_str(), row[1].c_str(),
                                       row[2].c_str(), pqxx::binarystring(row[3]).str(),
                                       row[4].c_str()));
        }
        return rows;
    }
    const auto file = sqlite::connect(folder / "day.db", SQLITE_OPEN_READONLY);
    sqlite::Statement found(file.get(), select);
    while (found.step()) {
        rows.push_back(fmt::format("{} {} {} {} {}", found.bytes(0), found.number(1),
                                   found.number(2), found.bytes(3), found.bytes(4)));
    }
    return rows;
}

// The gateway before may have put some of them there: what is there stays.
TEST_CASE("what was sent is there once") {
    const Scratch folder("connection_log");
    const std::unique_ptr<Database> database = database_of(folder.path(), 2);
    database->take_over();
    const auto writer = database->writer();
    Batch few;
    few.sent = {{"F1", 1, 3, "one", "58=a"}, {"F1", 2, 4, "two", {}}};
    writer->commit(few);
    Batch many;
    for (std::uint32_t number = 1; number <= 40; ++number) {
        many.sent.push_back({"F2", number, 5, "many", {}});
    }
    writer->commit_copies(many);
    check(sent_rows(folder.path()).size() == 42, "rows");
    Batch again;
    again.sent = {{"F1", 2, 9, "other", "58=b"}, {"F1", 3, 6, "three", "58=c"}};
    bool is_refused = false;
    try {
        database->writer()->commit(again);
    } catch (const std::runtime_error &) {
        is_refused = true;
    }
    check(is_refused, "a message is put twice");
    again.is_repeated = true;
    writer->commit(again);
    const auto rows = sent_rows(folder.path());
    check(rows.size() == 43, "rows");
    check(std::vector<std::string>(rows.begin(), rows.begin() + 4) ==
              std::vector<std::string>{"F1 1 3 one 58=a", "F1 2 4 two -", "F1 3 6 three 58=c",
                                       "F2 1 5 many -"},
          fmt::format("{}", fmt::join(rows, "\n")));
}

} // namespace

} // namespace gateway::tests
