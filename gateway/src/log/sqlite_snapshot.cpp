#include "log/sqlite_snapshot.h"

#include "log/sqlite_statement.h"

#include <algorithm>
#include <stdexcept>

#include <sqlite3.h>

namespace gateway {

namespace {

// The first bytes of a write-ahead log, with salts that are others each time it is begun.
constexpr std::size_t wal_header = 32;

} // namespace

void SqliteSnapshot::Close::operator()(sqlite3 *connection) const {
    sqlite3_close_v2(connection);
}

// A transaction that has read something holds what it sees: no checkpoint puts a later commit into
// the file, and the write-ahead log is not begun anew while something of it is not in the file.
// Frames that are written behind the moment are whole commits, or end what is read of them. The
// bytes are read through SQLite's own descriptors: closing another one of the file would end its
// locks.
SqliteSnapshot::SqliteSnapshot(const std::filesystem::path &path)
    : connection_(sqlite::connect(path.string(), SQLITE_OPEN_READONLY).release()) {
    sqlite::execute(connection_.get(), "BEGIN");
    sqlite::Statement(connection_.get(), "SELECT count(*) FROM form").run();
    log_ = file(SQLITE_FCNTL_FILE_POINTER);
    beside_ = file(SQLITE_FCNTL_JOURNAL_POINTER);
}

SqliteSnapshot::~SqliteSnapshot() = default;

SqliteSnapshot::File SqliteSnapshot::file(int which) const {
    File found;
    sqlite3_int64 size = 0;
    if (sqlite3_file_control(connection_.get(), "main", which, &found.file_) != SQLITE_OK) {
        sqlite::fail(connection_.get(), "its file");
    }
    if (found.file_ == nullptr || found.file_->pMethods == nullptr) {
        found.file_ = nullptr;
        return found;
    }
    if (found.file_->pMethods->xFileSize(found.file_, &size) != SQLITE_OK) {
        sqlite::fail(connection_.get(), "the length of its file");
    }
    found.size_ = static_cast<std::uint64_t>(size);
    return found;
}

// Where all of it was in the file at that moment, the next commit begins it anew. The frames that
// were read before that are older than the file, and what follows on them is gone: SQLite would put
// old pages over new ones. It happens once at most, since nothing more is put into the file.
void SqliteSnapshot::give_beside(std::size_t piece, const std::function<void()> &begin,
                                 const std::function<void(std::string_view)> &take) const {
    std::string begun;
    do {
        begun = beside_.read(0, wal_header);
        begin();
        for (std::uint64_t at = 0; at < beside_.size(); at += piece) {
            take(beside_.read(at, piece));
        }
    } while (beside_.read(0, wal_header) != begun);
}

std::string SqliteSnapshot::File::read(std::uint64_t from, std::size_t most) const {
    const std::uint64_t left = from < size_ ? size_ - from : 0;
    std::string bytes(static_cast<std::size_t>(std::min<std::uint64_t>(left, most)), '\0');
    if (!bytes.empty() &&
        file_->pMethods->xRead(file_, bytes.data(), static_cast<int>(bytes.size()),
                               static_cast<sqlite3_int64>(from)) != SQLITE_OK) {
        throw std::runtime_error("the log can't be read");
    }
    return bytes;
}

} // namespace gateway
