// Reads the bytes of a log in SQLite as they are at one moment, while the gateway goes on writing.
#ifndef GATEWAY_LOG_SQLITE_SNAPSHOT_H
#define GATEWAY_LOG_SQLITE_SNAPSHOT_H

#include <cstdint>
#include <filesystem>
#include <functional>
#include <memory>
#include <string>
#include <string_view>

struct sqlite3;
struct sqlite3_file;

namespace gateway {

// The file, and what stands beside it (`-wal`): SQLite makes of both the log as it was when this
// was made, or a little later, never a part of a commit. As long as this lives, the first stays as
// it is, but for what the second has, and the second grows with each commit: so not for long. One
// thread at a time.
class SqliteSnapshot {
  public:
    // Throws std::runtime_error that names the file.
    explicit SqliteSnapshot(const std::filesystem::path &path);
    ~SqliteSnapshot();
    SqliteSnapshot(const SqliteSnapshot &) = delete;
    SqliteSnapshot &operator=(const SqliteSnapshot &) = delete;

    // One of the two files.
    class File {
      public:
        std::uint64_t size() const { return size_; }
        // The bytes from a place on: `most` at most, and fewer at the end alone. Throws
        // std::runtime_error.
        std::string read(std::uint64_t from, std::size_t most) const;

      private:
        friend class SqliteSnapshot;
        sqlite3_file *file_ = nullptr; // null where there is none
        std::uint64_t size_ = 0;
    };
    const File &log() const { return log_; }
    const File &beside() const { return beside_; }
    // Calls `begin`, and then `take` with each piece of what stands beside the file. Where the
    // writer begins that anew meanwhile, what was given is worth nothing: all is given once more,
    // from `begin` on.
    void give_beside(std::size_t piece, const std::function<void()> &begin,
                     const std::function<void(std::string_view)> &take) const;

  private:
    struct Close {
        void operator()(sqlite3 *connection) const;
    };
    File file(int which) const;

    std::unique_ptr<sqlite3, Close> connection_;
    File log_;
    File beside_;
};

} // namespace gateway

#endif
