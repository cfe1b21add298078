// What sessions may have to send again, in files without a name.
#define DOCTEST_CONFIG_IMPLEMENT_WITH_MAIN
#include <doctest/doctest.h>

#include "check.h"
#include "log/session_note_line.h"
#include "log/spool.h"

#include <atomic>
#include <chrono>
#include <cstdint>
#include <filesystem>
#include <future>
#include <iterator>
#include <string>
#include <vector>

#include <fmt/format.h>
#include <sys/syscall.h>
#include <unistd.h>

namespace gateway::tests {

namespace {

// Of a disk that does not answer for a while: reads of so many bytes wait, and have begun.
constexpr std::size_t slow_length = 1000;
std::atomic<bool> is_slow{false};
std::atomic<bool> has_begun{false};

} // namespace

} // namespace gateway::tests

// Files are read by it in the place of the system's.
extern "C" ssize_t pread(int file, void *bytes, std::size_t length, off_t place) {
    if (length == gateway::tests::slow_length && gateway::tests::is_slow) {
        gateway::tests::has_begun = true;
        gateway::tests::has_begun.notify_all();
        gateway::tests::is_slow.wait(true);
    }
    return ::syscall(SYS_pread64, file, bytes, length, place);
}

namespace gateway::tests {

namespace {

// A spool of two firms, and the folder in which it lies.
struct Scene {
    Scratch scratch{"spool"};
    Spool spool{scratch.path(), {"DLR1", "INV1"}};

    // For entry 5, at its moment.
    void give(std::uint32_t number, const std::string &wire) {
        spool.give("DLR1", {number, 5, 1000 + number, "AI", wire, "frame of " + wire});
    }
    // Under a number of the session: the venue's message, or with 0 one of the session's own.
    void keep(std::uint32_t number, std::uint32_t given, const std::string &type = "3") {
        if (given > 0) {
            spool.keep_given("DLR1", number, given);
        } else {
            spool.keep("DLR1", {number, type, fmt::format("own {}", number), 2000, false});
        }
    }
    // `NUMBER:FRAME`, with a `'` behind the number of a copy.
    std::string kept(std::uint32_t from = 1, std::size_t limit = 100) const {
        std::string all;
        for (const KeptMessage &message : spool.kept("DLR1", from, limit)) {
            all += fmt::format("{}{}{}:{}", all.empty() ? "" : " ", message.number,
                               message.is_copy ? "'" : "", message.frame);
        }
        return all;
    }
};

// Takes all bytes out of the files without a name that this process has in a folder.
void cut_off_files_in(const std::filesystem::path &folder) {
    std::size_t cut = 0;
    for (const auto &file : std::filesystem::directory_iterator("/proc/self/fd")) {
        std::error_code none;
        const auto is = std::filesystem::read_symlink(file, none).string();
        if (is.starts_with(folder.string() + "/.spool-")) {
            cut += ::truncate(file.path().c_str(), 0) == 0 ? 1U : 0U;
        }
    }
    check(cut > 0, "there is no file of a spool");
}

} // namespace

TEST_CASE("what is kept comes back by its number") {
    Scene scene;
    scene.give(1, "quote 1");
    scene.give(2, "quote 2");
    scene.keep(2, 1);
    scene.keep(3, 0);
    scene.keep(7, 2);
    same<std::string>("2:quote 1 3:own 3 7:quote 2", scene.kept(), "all");
    same<std::string>("3:own 3", scene.kept(3, 1), "one from a number on");
    same<std::string>("7:quote 2", scene.kept(4), "behind a gap");
    same<std::string>("", scene.kept(8), "behind the last one");
    const KeptMessage last = scene.spool.kept("DLR1", 7, 1).at(0);
    same<std::string>("AI", last.type, "its 35");
    same<std::uint32_t>(1002, last.first, "the moment of its entry");
    same<std::size_t>(0, scene.spool.kept("INV1", 1, 9).size(), "another firm's");
    same<std::uint64_t>(1, scene.spool.count_given("DLR1", 2), "the venue's behind a number");
}

TEST_CASE("more than is read at once") {
    Scene scene;
    for (std::uint32_t number = 1; number <= 3000; ++number) {
        scene.give(number, fmt::format("{}", number));
        scene.keep(3 * number, number);
    }
    same<std::size_t>(3000, scene.spool.kept("DLR1", 1, 5000).size(), "all");
    same<std::string>("8997:2999 9000:3000", scene.kept(8995), "the end");
    same<std::uint64_t>(2990, scene.spool.count_given("DLR1", 30), "how many");
}

// What was put last is in memory alone, and is found there as the rest is in the files.
TEST_CASE("all is found at each length") {
    Scene scene;
    const std::string long_text(700, 'x');
    for (std::uint32_t number = 1; number <= 200; ++number) {
        scene.give(number, long_text + std::to_string(number));
        scene.keep(2 * number, number);
        scene.keep(2 * number + 1, 0);
        const auto kept = scene.spool.kept("DLR1", 2, 1000);
        same<std::size_t>(std::size_t{2} * number, kept.size(), "all");
        same(long_text + std::to_string(number), kept.at(kept.size() - 2).frame, "the last one");
        same<std::string>(long_text + "1", kept.at(0).frame, "the first one");
        same(fmt::format("frame of {}{}", long_text, number),
             scene.spool.given("DLR1", number).frame, "the venue's frame");
    }
    scene.spool.drop_rejects("DLR1", 151);
    same<std::size_t>(200 + 74, scene.spool.kept("DLR1", 2, 1000).size(), "without some");
    same<std::size_t>(1 + 126, scene.spool.kept("DLR1", 149, 1000).size(), "from there on");
}

TEST_CASE("a venue that gives again gives the same") {
    Scene scene;
    const GivenMessage first{1, 5, 1001, "AI", "quote 1", "frame of quote 1", "58=too late"};
    const auto hash = scene.spool.give("DLR1", first);
    check(hash == scene.spool.hash_of_given("DLR1", 1), "the running hash");
    check(!scene.spool.give("DLR1", first), "it is given again");
    same<std::uint32_t>(1, scene.spool.last_given("DLR1"), "how many");
    const GivenMessage found = scene.spool.given("DLR1", 1);
    check(found.wire == first.wire && found.frame == first.frame && found.told == first.told &&
              found.place == 5,
          "the message");
    const auto is_another = [&](const GivenMessage &other) {
        CHECK_THROWS_WITH(scene.spool.give("DLR1", other),
                          "the venue gives DLR1 another message 1 than it gave before");
    };
    is_another({1, 5, 1001, "AI", "quote 2", {}});
    is_another({1, 5, 1001, "AJ", "quote 1", {}});
    is_another({1, 6, 1001, "AI", "quote 1", {}});
    CHECK_THROWS_WITH(scene.give(3, "quote 3"), "the venue gave DLR1 message 3 where 2 was due");
    CHECK_THROWS_WITH(scene.spool.given("DLR1", 2), "the venue did not give DLR1 its message 2");
}

// As a start takes them: many are read at once, some of them in memory alone.
TEST_CASE("many that the venue gave") {
    Scene scene;
    std::vector<Digest> hashes{Digest{}};
    for (std::uint32_t number = 1; number <= 700; ++number) {
        hashes.push_back(hash_of_message(hashes.back(), fmt::format("quote {}", number)));
        scene.give(number, fmt::format("quote {}", number));
    }
    check(scene.spool.hash_of_given("DLR1", 0) == Digest{}, "before the first");
    check(scene.spool.hash_of_given("DLR1", 700) == hashes[700], "of the last");
    std::uint32_t next = 2;
    std::vector<Digest> seen{Digest{}};
    const auto numbered = [&](const Digest &hash) {
        seen.push_back(hash);
        return seen.size() % 100 == 0 ? 0 : next++; // of the messages 99, 199 and so on nothing
    };
    scene.spool.keep_all_given("DLR1", 1, 600, numbered);
    scene.spool.keep_all_given("DLR1", 601, 600, numbered);
    scene.keep(next++, 0);
    scene.spool.keep_all_given("DLR1", 601, 700, numbered);
    check(seen == hashes, "the hash of each, in order");
    same<std::size_t>(694, scene.spool.kept("DLR1", 1, 1000).size(), "all that is kept");
    same<std::string>("98:quote 97 99:quote 98 100:quote 100", scene.kept(98, 3), "but for one");
    same<std::string>("595:quote 600 596:own 596 597:quote 601", scene.kept(595, 3), "in order");
    same<std::uint32_t>(1700, scene.spool.kept("DLR1", 695, 1).at(0).first, "the last's moment");
    CHECK_THROWS_WITH(scene.spool.keep_all_given("DLR1", 700, 701, numbered),
                      "DLR1's session keeps message 701, which the venue did not give");
}

TEST_CASE("what the venue did not give is not kept") {
    Scene scene;
    CHECK_THROWS_WITH(scene.keep(2, 1), "DLR1's session keeps message 1, which the venue did not "
                                        "give");
    CHECK_THROWS_WITH(scene.spool.give("NOBODY", {1, 5, 0, "AI", "x", {}}),
                      "there is no firm NOBODY");
}

TEST_CASE("Rejects that are dropped are gone, and nothing else is") {
    Scene scene;
    scene.give(1, "quote 1");
    scene.keep(2, 0, "3");
    scene.keep(3, 1);
    scene.keep(4, 0, "j");
    scene.keep(5, 0, "0");
    scene.spool.drop_rejects("DLR1", 3);
    same<std::string>("2:own 2 3:quote 1 5:own 5", scene.kept(), "from a number on");
    scene.spool.drop_rejects("DLR1", 1);
    same<std::string>("3:quote 1 5:own 5", scene.kept(), "all");
}

TEST_CASE("a reset numbers what the firm lacks from 2 on") {
    Scene scene;
    scene.give(1, "quote 1");
    scene.give(2, "quote 2");
    scene.give(3, "quote 3");
    scene.keep(2, 1);
    scene.keep(3, 2);
    scene.keep(4, 0);
    scene.keep(5, 3);
    scene.spool.reset("DLR1", 2);
    same<std::string>("2':quote 2 3':quote 3", scene.kept(), "copies");
    same<std::uint32_t>(1002, scene.spool.kept("DLR1", 2, 1).at(0).first, "the first moment");
    scene.give(4, "quote 4");
    scene.keep(4, 4);
    same<std::string>("2':quote 2 3':quote 3 4:quote 4", scene.kept(), "and what follows");
    scene.spool.reset("DLR1", 3);
    same<std::string>("2':quote 4", scene.kept(), "a second one");
}

TEST_CASE("a reset that leaves nothing") {
    Scene scene;
    scene.keep(2, 0);
    scene.spool.reset("DLR1", 0);
    same<std::string>("", scene.kept(), "nothing is kept");
    same<std::uint64_t>(0, scene.spool.count_given("DLR1", 0), "of the venue's neither");
    scene.spool.drop_rejects("DLR1", 1);
    scene.spool.reset("DLR1", 0);
    scene.keep(2, 0);
    same<std::string>("2:own 2", scene.kept(), "what follows");
}

TEST_CASE("numbers under which nothing is kept take no time") {
    Scene scene;
    scene.keep(2, 0);
    scene.keep(999'999'990, 0, "0");
    for (int again = 0; again < 1000; ++again) {
        same<std::string>("2:own 2", scene.kept(1, 1), "the first");
        same<std::string>("999999990:own 999999990", scene.kept(3), "from behind it on");
    }
    scene.spool.drop_rejects("DLR1", 1);
    same<std::string>("999999990:own 999999990", scene.kept(), "without the Reject");
}

TEST_CASE("Rejects that come after others were dropped") {
    Scene scene;
    scene.keep(2, 0);
    scene.spool.drop_rejects("DLR1", 1);
    scene.spool.drop_rejects("DLR1", 1);
    scene.keep(3, 0);
    scene.keep(4, 0, "j");
    scene.spool.drop_rejects("DLR1", 4);
    same<std::string>("3:own 3", scene.kept(), "from a number on");
    scene.spool.drop_rejects("DLR1", 1);
    same<std::string>("", scene.kept(), "all");
}

TEST_CASE("numbers rise") {
    Scene scene;
    scene.keep(3, 0);
    CHECK_THROWS_WITH(scene.keep(3, 0), "message 3 is kept behind message 3");
    CHECK_THROWS_WITH(scene.keep(2, 0), "message 2 is kept behind message 3");
}

// Nothing is left out in silence: a firm would be told that there was no such message.
TEST_CASE("files that were cut off") {
    Scene scene;
    for (std::uint32_t number = 1; number <= 200; ++number) {
        scene.give(number, fmt::format("quote {}", number));
        scene.keep(2 * number, number);
        scene.keep(2 * number + 1, 0);
    }
    cut_off_files_in(scene.scratch.path());
    const std::string told = "the spool was cut off";
    CHECK_THROWS_WITH(scene.kept(), told.c_str());
    CHECK_THROWS_WITH(scene.spool.count_given("DLR1", 0), told.c_str());
    CHECK_THROWS_WITH(scene.spool.drop_rejects("DLR1", 1), told.c_str());
    CHECK_THROWS_WITH(scene.spool.reset("DLR1", 0), told.c_str());
    CHECK_THROWS_WITH(scene.spool.given("DLR1", 1), told.c_str());
    CHECK_THROWS_WITH(scene.spool.hash_of_given("DLR1", 1), told.c_str());
    CHECK_THROWS_WITH(scene.give(1, "quote 1"), told.c_str());
}

// A firm that asks for old messages keeps no other one waiting, for whom the same thread reads the
// venue.
TEST_CASE("what is read slowly keeps nothing waiting that is given") {
    Scene scene;
    const std::string long_text(slow_length, 'x');
    for (std::uint32_t number = 1; number <= 100; ++number) {
        scene.give(number, long_text);
        scene.keep(number + 1, number);
    }
    is_slow = true;
    auto resent = std::async(std::launch::async, [&] { return scene.kept(2, 1); });
    has_begun.wait(false);
    auto given = std::async(std::launch::async, [&] {
        scene.give(101, "quote 101");
        scene.spool.give("INV1", {1, 5, 1000, "AI", "quote 1", {}});
    });
    const bool is_given = given.wait_for(std::chrono::seconds(10)) == std::future_status::ready;
    is_slow = false;
    is_slow.notify_all();
    given.get();
    CHECK(is_given);
    same("2:" + long_text, resent.get(), "what is sent again");
}

TEST_CASE("nobody else finds the files") {
    const Scene scene;
    CHECK(std::filesystem::is_empty(scene.scratch.path()));
    CHECK_THROWS_AS(Spool(scene.scratch.path() / "nowhere", {}), std::system_error);
}

// The engine counts so many of each session (session/engine.cpp).
TEST_CASE("two files of each firm, and one of all") {
    namespace fs = std::filesystem;
    const auto open = [] {
        return std::distance(fs::directory_iterator("/proc/self/fd"), fs::directory_iterator());
    };
    const Scratch folder("spool");
    const auto before = open();
    const Spool spool(folder.path(), {"DLR1", "DLR2", "INV1"});
    CHECK(open() - before == 7);
}

} // namespace gateway::tests
