// The journal, and the record that the session's numbers come from.
#include <doctest/doctest.h>

#include "journal.h"
#include "record.h"
#include "unit.h"

#include <filesystem>
#include <fstream>
#include <sstream>
#include <vector>

using namespace desk;
using desk_tests::entry;
using desk_tests::Folder;

namespace {

std::vector<Entry> read(const std::string &path) {
    std::vector<Entry> all;
    const Journal journal(path, [&](const Entry &one) { all.push_back(one); });
    return all;
}

std::string bytes_of(const std::string &path) {
    std::ifstream file(path, std::ios::binary);
    std::ostringstream text;
    text << file.rdbuf();
    return text.str();
}

void put(const std::string &path, const std::string &bytes) {
    std::ofstream(path, std::ios::binary | std::ios::trunc) << bytes;
}

} // namespace

TEST_CASE("a journal gives back what was written, in order, whatever its bytes are") {
    const Folder folder;
    const std::string path = folder.file("journal");
    const std::vector<Entry> written{entry(Entry::Kind::received, 1, "35=R|34=1|"),
                                     entry(Entry::Kind::sent, 2, std::string("a\nR 1 2 3 b", 11)),
                                     entry(Entry::Kind::undelivered, 3, "7"),
                                     entry(Entry::Kind::session, 4, "")};
    {
        Journal journal(path, [](const Entry &) {});
        for (const Entry &one : written) {
            journal.write(one);
        }
        journal.synchronise();
    }
    const std::vector<Entry> got = read(path);
    REQUIRE(got.size() == written.size());
    for (std::size_t at = 0; at < got.size(); ++at) {
        CHECK(got[at].kind == written[at].kind);
        CHECK(got[at].moment == written[at].moment);
        CHECK(got[at].bytes == written[at].bytes);
    }
}

TEST_CASE(
    "cut off anywhere, or with a byte changed, a journal gives the whole entries before that") {
    const Folder folder;
    const std::string path = folder.file("journal");
    std::vector<std::size_t> ends{0};
    {
        Journal journal(path, [](const Entry &) {});
        for (int count = 0; count < 5; ++count) {
            journal.write(
                entry(Entry::Kind::received, count, "35=AI|34=" + std::to_string(count) + "|"));
            ends.push_back(std::filesystem::file_size(path));
        }
    }
    const std::string whole = bytes_of(path);
    for (std::size_t length = 0; length <= whole.size(); ++length) {
        CAPTURE(length);
        put(path, whole.substr(0, length));
        std::size_t good = 0;
        while (good + 1 < ends.size() && ends[good + 1] <= length) {
            ++good;
        }
        CHECK(read(path).size() == good);
        CHECK(std::filesystem::file_size(path) == ends[good]);
    }
    for (std::size_t at = ends[2]; at < ends[3]; ++at) {
        CAPTURE(at);
        std::string changed = whole;
        changed[at] = static_cast<char>(changed[at] ^ 1);
        put(path, changed);
        std::filesystem::remove(path + ".cut");
        CHECK(read(path).size() == 2);
        CHECK(bytes_of(path + ".cut") == changed.substr(ends[2]));
    }
}

TEST_CASE("the record's numbers are those after its last messages, also after a restart") {
    const Folder folder;
    int woken = 0;
    for (int start = 0; start < 2; ++start) {
        Record record(folder.file(""), [&] { ++woken; });
        const int before = 2 * start;
        CHECK(record.next_sent() == 1 + before);
        CHECK(record.next_received() == 1 + 5 * start);
        CHECK(record.take().size() == static_cast<std::size_t>(3 * start));
        record.keep(1 + before, false,
                    desk_tests::fix("35=A|34=" + std::to_string(1 + before) + "|"));
        record.keep(2 + before, true,
                    desk_tests::fix("35=S|34=" + std::to_string(2 + before) + "|"));
        record.received(desk_tests::fix("35=AI|34=" + std::to_string(5 + 5 * start) + "|"));
        record.undelivered(2 + before);
        CHECK(record.take().size() == 3); // and not the session's own
        CHECK(record.next_sent() == 3 + before);
        CHECK(record.next_received() == 6 + 5 * start);
        const auto kept = record.kept(1, 99);
        CHECK(kept.size() == static_cast<std::size_t>(2 + before));
        CHECK(kept.back().first == 2 + before);
    }
    CHECK(woken == 8);
}

TEST_CASE("a day that begins has no numbers, and a second one of the same date keeps the first's "
          "journal") {
    const Folder folder;
    Record record(folder.file(""), [] {});
    record.keep(1, true, desk_tests::fix("35=S|34=1|"));
    record.begin_day();
    CHECK(record.next_sent() == 1);
    CHECK(record.kept(1, 9).empty());
    const auto happenings = record.take();
    REQUIRE(happenings.size() == 2);
    CHECK(happenings[0].has_value());
    CHECK_FALSE(happenings[1].has_value());
    CHECK(std::filesystem::exists(folder.file("journal-" + record.date() + ".1")));
}

TEST_CASE("after a lost journal the numbers go on where they are said to") {
    const Folder folder;
    Record record(folder.file(""), [] {});
    record.skip_to(41);
    CHECK(record.next_sent() == 41);
    record.skip_to(7);
    CHECK(record.next_sent() == 41);
}
