// A process of the venue that does not behave: a line without an end, an output that ends before
// the process does, and what a process leaves behind.
#define DOCTEST_CONFIG_IMPLEMENT_WITH_MAIN
#include <doctest/doctest.h>

#include "check.h"
#include "venue/landlock_rules.h"
#include "venue/venue.h"

#include <atomic>
#include <chrono>
#include <csignal>
#include <ctime>
#include <filesystem>
#include <future>
#include <memory>
#include <sstream>
#include <string>
#include <utility>
#include <vector>

#include <fmt/ranges.h>
#include <spdlog/sinks/ostream_sink.h>
#include <sys/syscall.h>
#include <unistd.h>

namespace gateway::tests {

namespace {

using namespace std::chrono_literals;

// How far the clock that measures is ahead of the machine's.
std::atomic<long> seconds_ahead{0};

class Listener final : public VenueListener {
  public:
    // Why the venue is no more.
    std::string failure() {
        auto told = failure_.get_future();
        check(told.wait_for(60s) == std::future_status::ready, "it is waited for without end");
        return told.get();
    }

    // What the venue has said, once its process has ended.
    std::vector<std::string> calls;
    std::size_t late_start = 0; // the one before which a minute passes

    void venue_starts() override {
        calls.emplace_back("starts");
        seconds_ahead += calls.size() == late_start ? 60 : 0;
    }
    void venue_gave(const AnsweredEntry &entry, std::string firm, std::string frame,
                    std::optional<VenueNote> note) override {
        calls.push_back(fmt::format("{} {} {} {} {} {}", entry.place, entry.number, entry.line,
                                    firm, with_bars(frame), note ? note->name : "-"));
    }
    void venue_answered(std::uint32_t place, std::optional<Moment> deadline) override {
        calls.push_back(fmt::format("answered {} {}", place, deadline ? text_of(*deadline) : "-"));
    }
    void venue_pauses() override {}
    void venue_failed(const std::string &cause) override { failure_.set_value(cause); }

  private:
    std::promise<std::string> failure_;
};

// A venue that is this script of the shell, and what became of it. It is fed its configuration,
// which has one line, and so many entries.
struct Tried {
    Tried(const std::filesystem::path &folder, const std::string &script, std::uint32_t entries = 0,
          unsigned starts = 1, std::size_t late_start = 0) {
        const auto database = open_sqlite(folder / "day.db");
        EntryFeed feed(0);
        Metrics metrics;
        Listener listener;
        listener.late_start = late_start;
        std::ostringstream lines;
        const auto sink = std::make_shared<spdlog::sinks::ostream_sink_mt>(lines);
        sink->set_pattern("%v");
        Venue venue({{"sh", "-c", script}, "version = 1\n", starts}, *database, feed, Digest{},
                    listener, metrics, std::make_shared<spdlog::logger>("events", sink));
        Digest before{};
        for (std::uint32_t place = 1; place <= entries; ++place) {
            Entry entry;
            entry.place = place;
            entry.number = 10 + place;
            entry.moment = "09:00:00.000";
            entry.line = fmt::format("line {}", place);
            entry.before = before;
            entry.hash = before = hash_of(entry);
            feed.put({{entry, std::chrono::steady_clock::now()}});
        }
        venue.start();
        failure = listener.failure();
        venue.stop();
        calls = std::move(listener.calls);
        told = lines.str();
    }

    std::string failure;
    std::vector<std::string> calls;
    std::string told; // to the operator, in lines
};

// Why a venue is no more that is this script of the shell, and is started once.
std::string failure_of(const std::string &file, const std::string &script) {
    return Tried(std::filesystem::path(file).parent_path(), script).failure;
}

void tried(const std::string &file, const std::string &script, const std::string &cause) {
    const std::string told = failure_of(file, script);
    check(told.find(cause) != std::string::npos, fmt::format("of `{}` is told: {}", script, told));
}

TEST_CASE("a line without end") {
    // As the gateway does: a venue may end while it is fed.
    std::signal(SIGPIPE, SIG_IGN);
    const Scratch folder("venue");
    tried(folder.path() / "day.db", "head -c 1000000 /dev/zero; exec sleep 200",
          "a line of more than 65536 bytes");
}

// One of 65,536 bytes is a line as any other.
TEST_CASE("the longest line") {
    std::signal(SIGPIPE, SIG_IGN);
    const Scratch folder("venue");
    const std::string says = "head -c {} /dev/zero | tr '\\0' x; ";
    tried(folder.path() / "day.db",
          fmt::format(fmt::runtime(says), 65536) + "echo; echo done 2; exec sleep 200",
          "a message for no entry");
    const Scratch other("venue");
    tried(other.path() / "day.db", fmt::format(fmt::runtime(says), 65537) + "exec sleep 200",
          "a line of more than 65536 bytes");
}

TEST_CASE("an output that has ended") {
    // As the gateway does: a venue may end while it is fed.
    std::signal(SIGPIPE, SIG_IGN);
    const Scratch folder("venue");
    tried(folder.path() / "day.db", "exec sleep 200 >&-", "was ended by signal 9");
}

TEST_CASE("a note of no message") {
    std::signal(SIGPIPE, SIG_IGN);
    const Scratch folder("venue");
    tried(folder.path() / "day.db", "echo why DLR1 1 Closed; exec sleep 200",
          "a note of no message");
}

TEST_CASE("a note behind another of its message") {
    std::signal(SIGPIPE, SIG_IGN);
    const Scratch folder("venue");
    tried(folder.path() / "day.db",
          "echo DLR1 8=x; echo why DLR1 1 Closed; echo trade DLR1 1 x; exec sleep 200",
          "a note of no message");
}

// It has read its configuration, `%%` and `#`, so that the mark of line 3 comes first.
TEST_CASE("marks that are not due") {
    std::signal(SIGPIPE, SIG_IGN);
    struct Case {
        std::uint32_t entries;
        const char *says;
        const char *failure;
    };
    const std::string reads = "read a; read b; read c; ";
    for (const Case &each : {
             Case{0, "echo done 2",
                  "the venue gave the mark `done 2` where that of line 3 was due"},
             Case{0, "echo done 4",
                  "the venue gave the mark `done 4` where that of line 3 was due"},
             Case{0, "echo done x",
                  "the venue gave the mark `done x` where that of line 3 was due"},
             Case{0, "echo 'done '",
                  "the venue gave the mark `done ` where that of line 3 was due"},
             Case{0, "echo done 3; echo done 3",
                  "the venue gave the mark `done 3` where that of line 4 was due"},
             Case{0, "echo done 3; echo done 4", "the venue gave the mark `done 4` for no entry"},
             Case{1, "read d; echo done 3; echo done 4 25:00",
                  "the venue gave the mark `done 4 25:00`"},
             Case{0, "echo fault 3 no such bond", "the venue refuses entry 0: no such bond"},
             Case{1, "read d; echo done 3; echo fault 4 no such form",
                  "the venue refuses entry 1: no such form"},
             Case{0, "echo 'DLR1 8=x'; echo done 3",
                  "the venue gave DLR1 a message for no entry: 8=x"},
             Case{0, "echo done 3; echo 'DLR1 8=x'; echo done 4",
                  "the venue gave DLR1 a message for no entry: 8=x"},
         }) {
        const Scratch folder("venue");
        const Tried venue(folder.path(), reads + each.says + "; exec sleep 200", each.entries);
        same<std::string>(each.failure, venue.failure, each.says);
    }
}

TEST_CASE("what a venue says of an entry") {
    std::signal(SIGPIPE, SIG_IGN);
    const Scratch folder("venue");
    const Tried venue(
        folder.path(),
        "read a; read b; read c; echo done 3; read d; read e\n"
        "echo 'DLR1 8=FIX|35=AI|'; echo 'why DLR1 1 Closed'; echo 'INV1 8=FIX|35=S|'\n"
        "echo done 4 09:00:01.000; echo done 5\nexit 3",
        2);
    const std::vector<std::string> wanted = {"starts",
                                             "answered 0 -",
                                             "1 11 line 1 DLR1 8=FIX|35=AI| Closed",
                                             "1 11 line 1 INV1 8=FIX|35=S| -",
                                             "answered 1 09:00:01.000",
                                             "answered 2 -"};
    check(venue.calls == wanted, fmt::format("{}", fmt::join(venue.calls, "\n")));
    same<std::string>("the venue ended with status 3 again and again; its last words: none",
                      venue.failure, "why it is no more");
}

TEST_CASE("so many starts within a minute, and the last words") {
    std::signal(SIGPIPE, SIG_IGN);
    const Scratch folder("venue");
    const Tried venue(folder.path(), "echo one >&2; printf two >&2; exit 4", 0, 3);
    check(venue.calls == std::vector<std::string>(3, "starts"), "it is started otherwise");
    same<std::string>("the venue ended with status 4 again and again; its last words: one / two",
                      venue.failure, "why it is no more");
    check(venue.told.find("venue ended with status 4 words=\"one / two\"\n") != std::string::npos,
          venue.told);
    const Scratch later("venue");
    const Tried late(later.path(), "exit 4", 0, 2, 2);
    check(late.calls == std::vector<std::string>(3, "starts"), "a start counts for more");
    const Scratch other("venue");
    const Tried talks(other.path(), "printf '%2040s\\n' x >&2; echo abcdef >&2; exit 4");
    const std::string begin = "the venue ended with status 4 again and again; its last words: ";
    same<std::size_t>(begin.size() + 2048, talks.failure.size(), "bytes of its last words");
    check(talks.failure.ends_with("   x / abcdef"), talks.failure);
}

TEST_CASE("a note of no form") {
    std::signal(SIGPIPE, SIG_IGN);
    const Scratch folder("venue");
    tried(folder.path() / "day.db", "echo DLR1 8=x; echo why DLR1 Closed; exec sleep 200",
          "a note of no form");
}

// As linux/landlock.h has them, by its versions: what of files, of the network and of other
// processes can be forbidden, and how many bytes say so.
TEST_CASE("what a kernel can forbid") {
    struct Case {
        long version;
        std::uint64_t files;
        std::uint64_t network;
        std::uint64_t scopes;
        std::size_t size;
    };
    for (const Case &each : {
             Case{1, 0x1fff, 0, 0, 8},
             Case{2, 0x3fff, 0, 0, 8},
             Case{3, 0x7fff, 0, 0, 8},
             Case{4, 0x7fff, 3, 0, 16},
             Case{5, 0xffff, 3, 0, 16},
             Case{6, 0xffff, 3, 3, 24},
             Case{7, 0xffff, 3, 3, 24},
         }) {
        const auto [rules, size] = landlock::all_of(each.version);
        const std::string what = fmt::format("version {}: ", each.version);
        same(each.files, rules.files, what + "files");
        same(each.network, rules.network, what + "the network");
        same(each.scopes, rules.scopes, what + "scopes");
        same(each.size, size, what + "bytes");
    }
}

// It has ten seconds from the end of its input.
TEST_CASE("one that does not end is killed") {
    std::signal(SIGPIPE, SIG_IGN);
    const Scratch folder("venue");
    const auto database = open_sqlite(folder.path() / "day.db");
    EntryFeed feed(0);
    Metrics metrics;
    Listener listener;
    Venue venue({{"sh", "-c", "exec sleep 200"}, "version = 1\n", 1}, *database, feed, Digest{},
                listener, metrics, std::make_shared<spdlog::logger>("none"));
    venue.start();
    const auto stopped = std::async(std::launch::async, [&] { venue.stop(); });
    check(stopped.wait_for(60s) == std::future_status::ready, "it is waited for without end");
}

TEST_CASE("one that ends again and again") {
    // As the gateway does: a venue may end while it is fed.
    std::signal(SIGPIPE, SIG_IGN);
    const Scratch folder("venue");
    tried(folder.path() / "day.db", "sleep 200 >&- & echo last >&2; exit 3",
          "ended with status 3 again and again; its last words: last");
}

} // namespace

} // namespace gateway::tests

// In the place of the C library's.
extern "C" int clock_gettime(clockid_t clock, timespec *now) noexcept {
    const long result = ::syscall(SYS_clock_gettime, clock, now);
    now->tv_sec += clock == CLOCK_MONOTONIC ? gateway::tests::seconds_ahead.load() : 0;
    return static_cast<int>(result);
}
