// A disk that fails: whoever commits to a log in SQLite is told of it.
#define DOCTEST_CONFIG_IMPLEMENT_WITH_MAIN
#include <doctest/doctest.h>

#include "check.h"
#include "log/database.h"

#include <cerrno>
#include <cstdint>
#include <memory>
#include <string>

#include <fmt/format.h>
#include <sys/syscall.h>
#include <unistd.h>

namespace gateway::tests {

namespace {

// Whether synchronisations of this process fail, and how many have.
bool is_broken = false;
int failed = 0;

int synced(long call, int file) {
    if (is_broken) {
        ++failed;
        errno = EIO;
        return -1;
    }
    return static_cast<int>(::syscall(call, file));
}

} // namespace

} // namespace gateway::tests

// SQLite calls them in the place of the system's.
extern "C" int fsync(int file) {
    return gateway::tests::synced(SYS_fsync, file);
}
extern "C" int fdatasync(int file) {
    return gateway::tests::synced(SYS_fdatasync, file);
}

namespace gateway::tests {

namespace {

Batch copy_of(std::uint32_t number) {
    Batch batch;
    batch.sent.push_back({"F", number, 0, std::string(1 << 16, 'x'), {}});
    return batch;
}

// Whether one failed in it, and nobody was told.
template <typename Work> bool fails_in_silence(Work work) {
    failed = 0;
    is_broken = true;
    bool is_told = false;
    try {
        work();
    } catch (const std::exception &) {
        is_told = true;
    }
    is_broken = false;
    return failed > 0 && !is_told;
}

// A log to which copies are put, of more bytes than the write-ahead log has as a rule.
class Copies {
  public:
    static constexpr std::uint32_t many = 200;

    void put() { writer_->commit_copies(copy_of(++number_)); }
    void commit() { writer_->commit(copy_of(++number_)); }
    void rest() { writer_->rest(); }

  private:
    const Scratch scratch_{"syncs"};
    const std::unique_ptr<Database> database_ = open_sqlite((scratch_.path() / "day.db").string());
    const std::unique_ptr<LogWriter> writer_ = database_->writer();
    std::uint32_t number_ = 0;
};

} // namespace

// A disk that has failed says the next time that all is well, and what was to be written may be
// gone: a cut of power would take the entries that are committed behind it.
TEST_CASE("no synchronisation fails in silence while the copy is committed") {
    Copies copies;
    for (std::uint32_t number = 1; number <= Copies::many; ++number) {
        check(!fails_in_silence([&] { copies.put(); }), fmt::format("copy {}", number));
    }
}

TEST_CASE("no synchronisation fails in silence behind the copy") {
    Copies copies;
    for (std::uint32_t number = 1; number <= Copies::many; ++number) {
        copies.put();
        check(!fails_in_silence([&] { copies.rest(); }), fmt::format("copy {}", number));
    }
}

TEST_CASE("a commit whose synchronisation fails is told") {
    Copies copies;
    copies.put();
    is_broken = true;
    CHECK_THROWS(copies.commit());
    is_broken = false;
}

} // namespace gateway::tests
