// A log of SQLite is read while it is written.
#define DOCTEST_CONFIG_IMPLEMENT_WITH_MAIN
#include <doctest/doctest.h>

#include "check.h"
#include "log/sqlite_snapshot.h"
#include "log/sqlite_statement.h"

#include <cstdint>
#include <filesystem>
#include <fstream>
#include <functional>
#include <string>
#include <string_view>

namespace gateway::tests {

namespace {

namespace fs = std::filesystem;

constexpr std::size_t piece = 4096; // bytes: a page and its frame are in two of them
constexpr int rows = 200;

// Every commit writes the page of the one before again.
class Writer {
  public:
    explicit Writer(const fs::path &log)
        : connection_(
              sqlite::connect(log.string(), SQLITE_OPEN_READWRITE | SQLITE_OPEN_CREATE).release()) {
        sqlite::execute(connection_.get(), "PRAGMA journal_mode = WAL");
        sqlite::execute(connection_.get(), "PRAGMA synchronous = OFF");
        sqlite::execute(connection_.get(), "PRAGMA wal_autocheckpoint = 0");
        sqlite::execute(connection_.get(), "CREATE TABLE form (number INTEGER)");
    }
    void add(int count) {
        for (int each = 0; each < count; ++each) {
            sqlite::execute(connection_.get(), "INSERT INTO form VALUES (1)");
        }
    }
    // Puts all that stands beside the file into it.
    void empty_beside() { sqlite::execute(connection_.get(), "PRAGMA wal_checkpoint(FULL)"); }

  private:
    sqlite::ConnectionPointer connection_;
};

std::uint64_t rows_of(const fs::path &log) {
    const sqlite::ConnectionPointer connection(
        sqlite::connect(log.string(), SQLITE_OPEN_READWRITE).release());
    sqlite::Statement count(connection.get(), "SELECT count(*) FROM form");
    REQUIRE(count.step());
    return count.number(0);
}

struct Copied {
    std::uint64_t rows = 0;
    int times = 0; // how often what stands beside the file was given
};

// What SQLite finds in a copy that is made in pieces; behind a piece of what stands beside the file
// something happens.
Copied copied(const fs::path &log, const std::function<void(int number)> &behind_piece) {
    const SqliteSnapshot snapshot(log);
    const fs::path copy = log.parent_path() / "copy.db";
    std::ofstream(copy, std::ios::binary) << snapshot.log().read(0, snapshot.log().size());
    Copied result;
    int number = 0;
    std::ofstream beside;
    snapshot.give_beside(
        piece,
        [&] {
            beside = std::ofstream(copy.string() + "-wal", std::ios::binary | std::ios::trunc);
            ++result.times;
        },
        [&](std::string_view bytes) {
            beside << bytes;
            behind_piece(++number);
        });
    beside.close();
    result.rows = rows_of(copy);
    return result;
}

} // namespace

TEST_CASE("what stands beside the file is given once more where it is begun anew meanwhile") {
    const Scratch folder("snapshot");
    const fs::path log = folder.path() / "log.db";
    Writer writer(log);
    writer.add(rows);
    writer.empty_beside();
    const Copied result = copied(log, [&](int number) {
        if (number == 3) {
            writer.add(rows / 2); // over the first half of the frames
        }
    });
    CHECK(result.times == 2);
    CHECK(result.rows == rows + rows / 2);
}

TEST_CASE("what is not in the file yet is given once, whoever writes meanwhile") {
    const Scratch folder("snapshot");
    const fs::path log = folder.path() / "log.db";
    Writer writer(log);
    writer.add(rows);
    const Copied result = copied(log, [&](int number) {
        writer.add(1);
        if (number == 3) {
            writer.empty_beside();
        }
    });
    CHECK(result.times == 1);
    CHECK(result.rows == rows);
}

} // namespace gateway::tests
