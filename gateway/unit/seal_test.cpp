// Tests seals and checkpoints: what somebody who may write the database, and has no key, can make a
// start believe; a log that was cut off, was put back, or is another's; and a signer that is in
// time.
#define DOCTEST_CONFIG_IMPLEMENT_WITH_MAIN
#include <doctest/doctest.h>

#include "base/private_file.h"
#include "check.h"
#include "comes_true.h"
#include "log/log_guard.h"
#include "log/sqlite_statement.h"
#include "log_days.h"
#include "test_keys.h"

#include <chrono>
#include <cstddef>
#include <cstdlib>
#include <ctime>
#include <filesystem>
#include <fstream>
#include <functional>
#include <iostream>
#include <iterator>
#include <thread>

#include <pqxx/pqxx>
#include <unistd.h>

namespace gateway::tests {

namespace {

using namespace std::chrono_literals;
namespace fs = std::filesystem;

const auto silent = std::make_shared<spdlog::logger>("none");

// A database, and the intruder's hand in it.
class Place {
  public:
    Place(fs::path folder, std::string connection)
        : folder_(std::move(folder)), connection_(std::move(connection)),
          schema_(fmt::format("seal_test_{}", ::getpid())) {
        fs::remove_all(folder_);
        fs::create_directories(folder_);
    }
    ~Place() {
        if (is_postgres()) {
            run("DROP SCHEMA IF EXISTS " + schema_ + " CASCADE");
        }
    }
    Place(const Place &) = delete;
    Place &operator=(const Place &) = delete;

    std::unique_ptr<Database> open() const {
        return is_postgres() ? open_postgres({connection_, schema_, "seal_test"})
                             : open_sqlite(file());
    }
    void run(const std::string &statement) const {
        if (is_postgres()) {
            pqxx::connection connection(connection_);
            pqxx::nontransaction(connection)
                .exec(fmt::format("SET search_path TO {}; {}", schema_, statement));
        } else {
            const auto connection = sqlite::connect(file(), SQLITE_OPEN_READWRITE);
            sqlite::execute(connection.get(), statement.c_str());
        }
    }
    // An SQL literal of bytes.
    std::string literal(const Digest &digest) const { return literal_of(text_of(digest)); }
    std::string no_bytes() const { return literal_of(""); }
    const fs::path &folder() const { return folder_; }

  private:
    std::string literal_of(const std::string &digits) const {
        return fmt::format(fmt::runtime(is_postgres() ? "'\\x{}'" : "x'{}'"), digits);
    }
    bool is_postgres() const { return !connection_.empty(); }
    std::string file() const { return (folder_ / "day.db").string(); }

    fs::path folder_;
    std::string connection_;
    std::string schema_;
};

Sealer sealer_at(const fs::path &folder, const std::string &venue = "") {
    return {{venue, today(), sha256("version = 1\n")}, test_keys(folder / "keys")};
}

LogGuard guard_at(const Place &place) {
    return {sealer_at(place.folder()), place.folder() / "checkpoints", silent};
}

std::ptrdiff_t threads_here() {
    const fs::directory_iterator tasks("/proc/self/task");
    return std::distance(begin(tasks), end(tasks));
}

// Appends so many messages, each with what happened to a connection, and signs where the log ends,
// as the end of the day or not.
void write_some(Database &database, LogGuard &guard, std::uint32_t term, std::uint32_t count,
                bool is_end_of_day = true) {
    Log::Start start = DayThatGoesOn::start_of(database);
    start.term = term;
    start.sealer = guard.sealer();
    start.seals = guard.sealed().seal;
    start.notes = guard.sealed().notes;
    const std::uint32_t last = start.last.place;
    DayClock clock{today()};
    Metrics metrics;
    EntryFeed feed{last};
    Log log(database, feed, clock, metrics, std::move(start),
            [](const std::string &cause) { std::cerr << cause << '\n'; });
    const std::ptrdiff_t threads = threads_here();
    const auto signer = guard.signer(log);
    for (std::uint32_t number = 1; number <= count; ++number) {
        ConnectionEvent event;
        event.event = connection_events::stranger;
        event.address = "192.0.2.7:1";
        log.put_connection(event);
        log.wait(log.append_message("F", came(last + number), "x"));
    }
    signer->end(is_end_of_day);
    // Else it signs again five seconds later, and the day has not ended.
    check(comes_true([&] { return threads_here() <= threads; }), "its thread goes on");
}

// A day of some messages, of a gateway that ended well, at the day's end or before it.
void write_day(const Place &place, std::uint32_t count, bool is_end_of_day = true) {
    const auto database = place.open();
    LogGuard guard = guard_at(place);
    Entry first;
    first.term = database->take_over().value();
    first.moment = "00:00:00.000";
    first.line = line_of({"program 1", Digest{}, "version = 1\n", ""});
    first.hash = hash_of(first);
    Batch batch;
    batch.entries.push_back(first);
    batch.seal = guard.begin(*database->reader(), first);
    database->writer()->commit(batch);
    write_some(*database, guard, first.term, count, is_end_of_day);
}

// What a start says of the log; empty where it takes it.
std::string start(const Place &place) {
    const auto database = place.open();
    LogGuard guard = guard_at(place);
    const auto reader = database->reader();
    try {
        guard.check_found(*reader);
        guard.check_end(*reader, reader->last_entry().value());
    } catch (const LogNotAccepted &fault) {
        return fmt::format("not accepted: {}", fault.what());
    } catch (const std::runtime_error &fault) {
        return fault.what();
    }
    return "";
}

void told(const std::string &words, const std::string &part, const std::string &what) {
    check(words.find(part) != std::string::npos,
          fmt::format("{}: `{}` is not in `{}`", what, part, words));
}

// An entry behind the last one, with number and hash right.
Entry next_entry(const Place &place) {
    const auto last = place.open()->reader()->last_entry().value();
    Entry entry = last;
    ++entry.place;
    entry.number = last.number.value() + 1;
    entry.before = last.hash;
    entry.hash = hash_of(entry);
    return entry;
}

std::string insert_of(const Place &place, const Entry &entry) {
    return fmt::format("INSERT INTO entry (place, term, moment, received, firm, number, "
                       "connection, line, before, hash) SELECT {}, term, moment, received, firm, "
                       "{}, connection, line, {}, {} FROM entry WHERE place = {};",
                       entry.place, *entry.number, place.literal(entry.before),
                       place.literal(entry.hash), entry.place - 1);
}

// What makes the chain whole again behind an entry whose receipt is another.
std::string chain_anew(const Place &place, std::uint32_t from) {
    const auto entries = place.open()->reader()->entries(from, 1000);
    std::string statements;
    Digest before = entries.front().before;
    for (Entry entry : entries) {
        if (entry.place == from) {
            entry.received = entry.moment + "999";
            statements += fmt::format("UPDATE entry SET received = '{}' WHERE place = {};",
                                      entry.received, from);
        }
        entry.before = before;
        entry.hash = before = hash_of(entry);
        statements +=
            fmt::format("UPDATE entry SET before = {}, hash = {} WHERE place = {};",
                        place.literal(entry.before), place.literal(entry.hash), entry.place);
    }
    return statements;
}

std::string seal_row(const Place &place, std::uint32_t number, const Entry &entry,
                     const Digest &mac) {
    return fmt::format("INSERT INTO seal VALUES ({}, {}, {}, 5, {}, {}, {});", number, entry.term,
                       entry.place, place.no_bytes(), place.literal(Digest{}), place.literal(mac));
}

// What is done to a log of six entries and seals while no gateway runs, and what a start says.
struct Act {
    std::string what;
    std::function<std::string(const Place &)> statements;
    std::string told;
};

const std::vector<Act> &acts() {
    static const std::vector<Act> all = {
        {"nothing", [](const Place &) { return "SELECT 1;"; }, ""},
        {"an entry put in", [](const Place &p) { return insert_of(p, next_entry(p)); },
         "entry 6 is not sealed"},
        {"an entry put in with a seal of another key",
         [](const Place &p) {
             const Entry entry = next_entry(p);
             return insert_of(p, entry) + seal_row(p, 7, entry, sha256("guessed"));
         },
         "at or before entry 6: seal 7"},
        {"an entry put in with the last seal's words",
         [](const Place &p) {
             const Entry entry = next_entry(p);
             return insert_of(p, entry) +
                    "UPDATE seal SET place = 6 WHERE number = (SELECT max(number) FROM seal);";
         },
         "at or before entry 6: seal 6"},
        {"an entry changed, and the chain made anew",
         [](const Place &p) { return chain_anew(p, 3); }, "at or before entry 3: seal 4"},
        {"no seals", [](const Place &) { return "DELETE FROM seal;"; }, "is not sealed"},
        {"a row of the door put in",
         [](const Place &) {
             return "INSERT INTO connection SELECT 6, term, moment, event, entry, number, firm, "
                    "address, certificate, why, left_out, before, hash FROM connection WHERE "
                    "place = 5;";
         },
         "row 6 of the table connection is not sealed"},
        {"the last entries cut off with their seals",
         [](const Place &) {
             return "DELETE FROM entry WHERE place > 3; DELETE FROM connection WHERE place > 3; "
                    "DELETE FROM seal WHERE place > 3; DELETE FROM checkpoint WHERE place > 3;";
         },
         "not accepted: the log ends at entry 3: it was cut off, or is an old backup"},
        {"the last checkpoint taken out",
         [](const Place &) {
             return "DELETE FROM checkpoint WHERE number = (SELECT max(number) FROM checkpoint);";
         },
         "is not there: the log was cut off, or is an old backup"},
        {"a checkpoint put in",
         [](const Place &) {
             return "INSERT INTO checkpoint SELECT number + 1, term, place, event, seal, is_end, "
                    "signature FROM checkpoint ORDER BY number DESC LIMIT 1;";
         },
         "has the signature of none of the log's gateways"},
        {"the last checkpoint is no end any more",
         [](const Place &) { return "UPDATE checkpoint SET is_end = 0;"; },
         "is another one: the log was cut off, or is an old backup"},
    };
    return all;
}

void intruders(const fs::path &folder, const std::string &connection) {
    for (const Act &act : acts()) {
        const Place place(folder / "sealed_days", connection);
        write_day(place, 5);
        place.run(act.statements(place));
        const std::string words = start(place);
        if (act.told.empty()) {
            same<std::string>("", words, act.what);
        } else {
            told(words, act.told, act.what);
        }
    }
}

// The act that accepts a loss is committed elsewhere.
void no_act(const Entry &) {}

// A log that was cut off is taken once the operator has said so, and goes on.
void accepted(const fs::path &folder, const std::string &connection) {
    const Place place(folder / "sealed_days", connection);
    write_day(place, 5);
    place.run("DELETE FROM entry WHERE place > 3; DELETE FROM connection WHERE place > 3; "
              "DELETE FROM seal WHERE place > 3; DELETE FROM checkpoint WHERE place > 3;");
    told(start(place), "--accept-loss", "the way out");
    LogGuard guard = guard_at(place);
    told(guard.accept(*place.open()->reader(), no_act),
         "after entry 3; the checkpoint that was kept had entry 5", "what is accepted");
    same<std::string>("", start(place), "a start after it");
    // What nobody has sealed is never accepted.
    place.run(insert_of(place, next_entry(place)));
    bool refused = false;
    try {
        guard_at(place).accept(*place.open()->reader(), no_act);
    } catch (const std::runtime_error &) {
        refused = true;
    }
    check(refused, "an entry that is not sealed is accepted");
}

// Without what was kept it is not known whether the log was cut off.
void nothing_kept(const fs::path &folder, const std::string &connection) {
    const Place place(folder / "sealed_days", connection);
    write_day(place, 5);
    const fs::path kept =
        CheckpointFile(place.folder() / "checkpoints", sealer_at(place.folder())).path();
    const std::string text = read_public(kept);
    fs::remove(kept);
    told(start(place), "not accepted: there is no checkpoint in", "no file");
    std::ofstream(kept) << text.substr(0, text.size() / 2);
    told(start(place), "is no checkpoint of this log", "a part of the file");
    std::string other = text;
    other[other.find("entry 5") + 6] = '3';
    std::ofstream(kept) << other;
    told(start(place), "is no checkpoint of this log", "a changed file");
    std::ofstream(kept) << text;
    same<std::string>("", start(place), "the file as it was");
}

// A database that gives each question what it likes: a log that ends at a seal, and all of it to
// whoever looks whether what was signed last is there.
class CutForMost final : public LogReader {
  public:
    CutForMost(LogReader &whole, std::uint32_t seal)
        : whole_(whole), end_(whole.seals(seal, 1).at(0).at) {}

    std::vector<Entry> entries(std::uint32_t from, std::uint32_t limit) override {
        return whole_.entries(from, limit == 1 ? 1 : std::min(limit, end_.place + 1 - from));
    }
    std::optional<Entry> last_entry() override { return whole_.entries(end_.place, 1).at(0); }
    std::vector<ConnectionEvent> connection_events(std::uint32_t from,
                                                   std::uint32_t limit) override {
        return whole_.connection_events(from, std::min(limit, end_.event + 1 - from));
    }
    std::optional<ConnectionEvent> last_connection() override {
        return whole_.connection_events(end_.event, 1).at(0);
    }
    std::vector<Seal> seals(std::uint32_t from, std::uint32_t limit) override {
        return whole_.seals(from, std::min(limit, end_.seal + 1 - from));
    }
    std::uint32_t count_checkpoints() override { return whole_.count_checkpoints(); }
    std::optional<Checkpoint> last_checkpoint() override { return whole_.last_checkpoint(); }
    std::optional<Checkpoint> checkpoint(std::uint32_t number) override {
        return whole_.checkpoint(number);
    }

  private:
    LogReader &whole_;
    const Position end_;
};

void two_faced(const fs::path &folder) {
    const Place place(folder / "sealed_days", "");
    write_day(place, 5);
    const auto database = place.open();
    const auto whole = database->reader();
    CutForMost cut(*whole, 4);
    LogGuard guard = guard_at(place);
    std::string words = "nothing";
    try {
        guard.check_found(cut);
        guard.check_end(cut, cut.last_entry().value());
    } catch (const LogNotAccepted &fault) {
        words = fault.what();
    }
    told(words, "it was cut off, or is an old backup", "a log that is cut for most");
}

// What somebody has left in the database between two starts, to be done when a gateway writes
// there.
void left_in_the_database(const fs::path &folder) {
    const Place place(folder / "sealed_days", "");
    write_day(place, 2, false);
    place.run("CREATE TRIGGER later AFTER INSERT ON entry BEGIN UPDATE entry SET line = 'nothing' "
              "WHERE place = NEW.place; END;");
    const auto database = place.open();
    const auto reader = database->reader();
    LogGuard guard = guard_at(place);
    guard.check_found(*reader);
    write_some(*database, guard, database->take_over().value(), 2);
    for (const Entry &entry : reader->entries(0, 10)) {
        check(entry.hash == hash_of(entry), fmt::format("entry {} is another", entry.place));
    }
}

// Nothing of the file may be otherwise: no byte, no line, and nothing behind it.
void changed_checkpoint(const fs::path &folder) {
    fs::create_directories(folder);
    const Sealer sealer = sealer_at(folder);
    const CheckpointFile file(folder / "checkpoints", sealer);
    CHECK_FALSE(file.read());
    Checkpoint put;
    put.at = {1, 5, sha256("entry"), 2, sha256("event"), 3, sha256("notes")};
    put.number = 1;
    put = sealer.sign(put);
    file.write(put);
    CHECK(file.read().value() == put);
    const std::string text = read_public(file.path());
    const auto is_refused = [&file](const std::string &other) {
        std::ofstream(file.path()) << other;
        try {
            file.read();
            return false;
        } catch (const std::runtime_error &) {
            return true;
        }
    };
    for (std::size_t at = 0; at < text.size(); ++at) {
        std::string other = text;
        other[at] = text[at] == '0' ? '1' : '0';
        check(is_refused(other), fmt::format("byte {} is another: {}", at, other));
        check(is_refused(text.substr(0, at)), fmt::format("it ends at byte {}", at));
        const std::size_t end = text.find('\n', at) + 1;
        check(is_refused(text.substr(0, at) + text.substr(end)),
              fmt::format("bytes {} to {} are taken out", at, end));
    }
    check(is_refused(text + "\n") && is_refused("\n" + text), "another line");
    CHECK_FALSE(is_refused(text));
}

// A gateway that follows has no file yet, and takes what the one that speaks has signed since; what
// was signed before, under another number, is no sign of it.
void one_that_follows(const fs::path &folder, const std::string &connection) {
    const Place place(folder / "sealed_days", connection);
    write_day(place, 5);
    const auto database = place.open();
    const auto reader = database->reader();
    LogGuard other(sealer_at(place.folder()), place.folder() / "other", silent);
    other.check_found(*reader);
    other.read_on(*reader);
    place.run(
        "INSERT INTO checkpoint SELECT number + 100, term, place, event, seal, is_end, signature "
        "FROM checkpoint ORDER BY number DESC LIMIT 1;");
    bool refused = false;
    try {
        other.read_on(*reader);
    } catch (const std::runtime_error &) {
        refused = true;
    }
    check(refused, "an old signature under a new number is taken");
    place.run("DELETE FROM checkpoint WHERE number > 100;");
    LogGuard speaks = guard_at(place);
    speaks.check_found(*reader);
    speaks.read_on(*reader);
    write_some(*database, speaks, database->take_over().value(), 2);
    other.read_on(*reader);
    other.check_end(*reader, reader->last_entry().value());
}

// The end of a day whose gateway was gone by then is signed by the next one, and not where the log
// is another than it was left.
void ended_late(const fs::path &folder, const std::string &connection) {
    const Place place(folder / "sealed_days", connection);
    write_day(place, 5, false);
    const auto ends = [&] {
        const auto database = place.open();
        const auto term = database->take_over().value();
        guard_at(place).sign_end(*database->reader(), *database->writer(), term);
        return database->reader()->last_checkpoint().value();
    };
    const std::string moment = place.open()->reader()->entries(5, 1).at(0).moment;
    place.run("UPDATE entry SET moment = '00:00:00.001' WHERE place = 5;");
    CHECK_THROWS_WITH_AS(ends(), doctest::Contains("entry 5"), std::runtime_error);
    place.run(fmt::format("UPDATE entry SET moment = '{}' WHERE place = 5;", moment));
    const Checkpoint last = place.open()->reader()->last_checkpoint().value();
    CHECK_FALSE(last.is_end);
    const Checkpoint end = ends();
    CHECK(end.is_end);
    same(last.number + 1, end.number, "its number");
    CHECK(end.before == last.signature);
    const CheckpointFile file(place.folder() / "checkpoints", sealer_at(place.folder()));
    CHECK(file.read().value() == end);
    same<std::string>("", start(place), "a start after it");
}

// A batch of session notes alone, put by a session.
void put_notes(const Place &place, const std::vector<std::string> &notes) {
    const auto database = place.open();
    LogGuard guard = guard_at(place);
    const auto reader = database->reader();
    guard.check_found(*reader);
    guard.check_end(*reader, reader->last_entry().value());
    Log::Start begin = DayThatGoesOn::start_of(*database);
    begin.term = database->take_over().value();
    begin.sealer = guard.sealer();
    begin.seals = guard.sealed().seal;
    begin.notes = guard.sealed().notes;
    DayClock clock{today()};
    Metrics metrics;
    EntryFeed feed{begin.last.place};
    Log log(*database, feed, clock, metrics, std::move(begin), [](const std::string &) {});
    log.wait(log.put({"F", {}, notes}));
}

// They are sealed as entries are: no start takes others.
void session_notes_are_sealed(const fs::path &folder, const std::string &connection) {
    const Place place(folder / "noted_days", connection);
    write_day(place, 2, false);
    put_notes(place, {"F 0 5 2 1 0 0", "F 0 1 3 1 0 0"});
    put_notes(place, {"F 0 0 4 1 0 0"});
    const std::vector<Seal> seals = place.open()->reader()->seals(1, 99);
    same<std::string>("F 0 5 2 1 0 0\nF 0 1 3 1 0 0\n", seals.at(seals.size() - 2).notes, "two");
    same<std::string>("F 0 0 4 1 0 0\n", seals.back().notes, "and one");
    same<std::string>("", start(place), "a start");
    place.run("UPDATE seal SET notes = mac WHERE number = (SELECT max(number) FROM seal)");
    told(start(place), "the log was changed at or before entry 2", "other notes");
}

// No seal is good for another venue, day, configuration, term, place or hash.
void of_one_log(const fs::path &folder) {
    const auto keys = test_keys(folder / "seal_keys");
    const LogName log{"north", "20261127", sha256("a")};
    const Position at{1, 2, sha256("b"), 3, sha256("c"), 4, sha256("d")};
    const Seal seal = Sealer(log, keys).seal(at);
    const Checkpoint signed_here = Sealer(log, keys).sign({1, at, {}, false, {}});
    const auto refuses = [&](const LogName &name, const Position &where, const std::string &what) {
        const Sealer other(name, keys);
        check(!other.is_sealed({where, seal.mac}), what + ": a seal of another log is right");
        check(!other.is_signed({1, where, {}, false, signed_here.signature}),
              what + ": so is a signature");
    };
    check(Sealer(log, keys).is_sealed(seal), "its own seal is wrong");
    check(Sealer(log, keys).is_signed(signed_here), "its own signature is wrong");
    const Signature &signature = signed_here.signature;
    check(!Sealer(log, keys).is_signed({2, at, {}, false, signature}), "another number");
    check(!Sealer(log, keys).is_signed({1, at, signature, false, signature}), "another before");
    check(!Sealer(log, keys).is_signed({1, at, {}, true, signature}), "an end");
    refuses({"south", "20261127", sha256("a")}, at, "venue");
    refuses({"north", "20261128", sha256("a")}, at, "day");
    refuses({"north", "20261127", sha256("x")}, at, "configuration");
    refuses(log, {2, 2, sha256("b"), 3, sha256("c"), 4, sha256("d")}, "term");
    refuses(log, {1, 3, sha256("b"), 3, sha256("c"), 4, sha256("d")}, "place");
    refuses(log, {1, 2, sha256("x"), 3, sha256("c"), 4, sha256("d")}, "hash");
    refuses(log, {1, 2, sha256("b"), 4, sha256("c"), 4, sha256("d")}, "event");
    refuses(log, {1, 2, sha256("b"), 3, sha256("x"), 4, sha256("d")}, "hash of the event");
    refuses(log, {1, 2, sha256("b"), 3, sha256("c"), 5, sha256("d")}, "seal");
    refuses(log, {1, 2, sha256("b"), 3, sha256("c"), 4, sha256("x")}, "hash of the notes");
    make_keys(folder / "seal_keys_of_others", {"gateway"});
    const Sealer stranger(log, test_keys(folder / "seal_keys_of_others"));
    check(!stranger.is_sealed(seal) && !stranger.is_signed(signed_here), "other keys");
}

// HMAC-SHA-256 by another implementation (the module hmac of Python).
TEST_CASE("known answers") {
    Digest secret{};
    for (std::size_t at = 0; at < secret.size(); ++at) {
        secret[at] = static_cast<unsigned char>(at);
    }
    same<std::string>("099805f4ac310786968565c098db515cc50862b420ae31e20238312344bed36a",
                      text_of(SealKey(secret).mac_of("what do ya want for nothing?")), "HMAC");
}

void keys_of_all_modes(const fs::path &folder) {
    const fs::path keys = folder / "seal_keys_of_modes";
    fs::remove_all(keys);
    make_keys(keys, {"gw1", "gw2"});
    const SealFiles files{keys / "seal.key", keys / "gw1.pem", {keys / "gw2.pub"}};
    read_seal_keys(files);
    const auto refused = [&](const SealFiles &given) {
        try {
            read_seal_keys(given);
        } catch (const std::runtime_error &fault) {
            return std::string(fault.what());
        }
        return std::string();
    };
    for (const fs::path &file : {files.secret, files.own}) {
        for (const unsigned mode : {0644U, 0604U, 0602U, 0660U, 0620U}) {
            fs::permissions(file, static_cast<fs::perms>(mode));
            told(refused(files), fmt::format("has the mode {:04o}", mode), file.string());
        }
        fs::permissions(file, static_cast<fs::perms>(0640));
        same<std::string>("", refused(files), file.string());
    }
    told(refused({files.own, files.own, {}}), "is no key", "a secret that is none");
    told(refused({files.secret, files.secret, {}}), "is no private key", "a private key");
    told(refused({files.secret, files.own, {files.secret}}), "is no public key", "a public key");
    bool stays = false;
    try {
        make_keys(keys, {"gw3"});
    } catch (const std::runtime_error &) {
        stays = true;
    }
    check(stays, "keys are overwritten");
}

// By the pairs and not by the files' names.
void keys_that_are_listed(const fs::path &folder) {
    const fs::path keys = folder / "seal_keys_listed";
    make_keys(keys, {"gw1", "gw2"});
    fs::copy_file(keys / "gw1.pub", keys / "another.pub");
    const auto is_listed = [&](const std::vector<fs::path> &gateways) {
        return read_seal_keys({keys / "seal.key", keys / "gw1.pem", gateways})->is_own_listed;
    };
    check(is_listed({keys / "gw1.pub"}), "its own alone");
    check(is_listed({keys / "gw2.pub", keys / "another.pub"}), "its own behind another's");
    check(is_listed({keys / "another.pub", keys / "gw2.pub"}), "its own before another's");
    check(!is_listed({keys / "gw2.pub"}), "another's alone");
    check(!is_listed({}), "none");
}

// An entry is signed, and kept outside of the database, in less than a second: here in thirty,
// since a machine may be busy.
void in_time(const fs::path &folder) {
    const Place place(folder / "sealed_days", "");
    write_day(place, 1);
    const auto database = place.open();
    LogGuard guard = guard_at(place);
    const auto reader = database->reader();
    guard.check_found(*reader);
    guard.check_end(*reader, reader->last_entry().value());
    Log::Start begin = DayThatGoesOn::start_of(*database);
    begin.sealer = guard.sealer();
    begin.seals = guard.sealed().seal;
    begin.notes = guard.sealed().notes;
    DayClock clock{today()};
    Metrics metrics;
    EntryFeed feed{begin.last.place};
    Log log(*database, feed, clock, metrics, std::move(begin), [](const std::string &) {});
    const auto signer = guard.signer(log);
    const CheckpointFile file(place.folder() / "checkpoints", guard.sealer());
    auto begun = std::chrono::steady_clock::now();
    for (std::uint32_t number = 10; number < 13; ++number) {
        begun = std::chrono::steady_clock::now();
        log.wait(log.append_message("F", came(number), "x"));
        const std::uint32_t last = log.last_place();
        while (file.read()->at.place < last) {
            check(std::chrono::steady_clock::now() - begun < 30s, "it is kept late");
            std::this_thread::sleep_for(5ms);
        }
    }
    // And each five seconds where nothing comes: so it shows that the log is written. The last one
    // came behind the last message.
    const std::uint32_t last = file.read()->number;
    while (file.read()->number == last) {
        check(std::chrono::steady_clock::now() - begun < 60s, "an idle log is not signed");
        std::this_thread::sleep_for(5ms);
    }
    check(std::chrono::steady_clock::now() - begun > 4s, "an idle log is signed too often");
}

// What a seal adds to a batch.
void tell_cost(const fs::path &folder) {
    const Sealer sealer({"", today(), Digest{}}, test_keys(folder / "seal_keys"));
    constexpr int count = 20000;
    Position at;
    const std::clock_t begin = std::clock();
    for (int number = 0; number < count; ++number) {
        at.hash = sealer.seal(at).mac;
    }
    const double took = static_cast<double>(std::clock() - begin) / CLOCKS_PER_SEC;
    std::cout << fmt::format("a seal takes {:.2f} microseconds\n", took * 1e6 / count);
}

// Where TEST_POSTGRES names a database in a schema there, and else in a file of SQLite.
std::string connection() {
    const char *given = std::getenv("TEST_POSTGRES");
    return given != nullptr ? given : "";
}

TEST_CASE("intruders") {
    const Scratch folder("seal");
    intruders(folder.path(), connection());
}

TEST_CASE("what is lost is accepted") {
    const Scratch folder("seal");
    accepted(folder.path(), connection());
}

TEST_CASE("nothing kept") {
    const Scratch folder("seal");
    nothing_kept(folder.path(), connection());
}

TEST_CASE("left in the database") {
    const Scratch folder("seal");
    left_in_the_database(folder.path());
}

TEST_CASE("two-faced") {
    const Scratch folder("seal");
    two_faced(folder.path());
}

TEST_CASE("a checkpoint's file that was changed") {
    const Scratch folder("seal");
    changed_checkpoint(folder.path() / "changed");
}

TEST_CASE("one that follows") {
    const Scratch folder("seal");
    one_that_follows(folder.path(), connection());
}

TEST_CASE("a day whose end is signed late") {
    const Scratch folder("seal");
    ended_late(folder.path(), connection());
}

TEST_CASE("session notes are sealed") {
    const Scratch folder("seal");
    session_notes_are_sealed(folder.path(), connection());
}

TEST_CASE("of one log") {
    const Scratch folder("seal");
    of_one_log(folder.path());
}

TEST_CASE("keys of all modes") {
    const Scratch folder("seal");
    keys_of_all_modes(folder.path());
}

TEST_CASE("keys that are listed") {
    const Scratch folder("seal");
    keys_that_are_listed(folder.path());
}

TEST_CASE("in time") {
    const Scratch folder("seal");
    in_time(folder.path());
}

TEST_CASE("what a seal costs") {
    const Scratch folder("seal");
    tell_cost(folder.path());
}

} // namespace

} // namespace gateway::tests
