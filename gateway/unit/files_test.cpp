// Files with secrets, files that are put in another's place, records in a file without a name, and
// copies.
#define DOCTEST_CONFIG_IMPLEMENT_WITH_MAIN
#include <doctest/doctest.h>

#include "base/file_copy.h"
#include "base/private_file.h"
#include "base/record_file.h"
#include "check.h"
#include "comes_true.h"

#include <array>
#include <filesystem>
#include <fstream>
#include <future>
#include <iterator>
#include <stop_token>
#include <string>

#include <sys/stat.h>

namespace gateway::tests {

namespace fs = std::filesystem;

std::string text_in(const fs::path &path) {
    std::ifstream file(path, std::ios::binary);
    return {std::istreambuf_iterator<char>(file), {}};
}

mode_t mode_of(const fs::path &path) {
    struct stat found {};
    REQUIRE(::stat(path.c_str(), &found) == 0);
    return found.st_mode & 07777;
}

TEST_CASE("a secret is read where nobody else may") {
    const Scratch folder("private");
    const fs::path file = folder.path() / "secret";
    const std::string text(10'000, 's'); // more than is read at once
    std::ofstream(file) << text;
    for (const mode_t mode : {0600U, 0640U, 0400U, 0440U}) {
        ::chmod(file.c_str(), mode);
        CHECK(read_private(file) == text);
        CHECK_NOTHROW(check_private(file));
    }
    for (const mode_t mode : {0660U, 0644U, 0642U, 0641U, 0620U}) {
        ::chmod(file.c_str(), mode);
        const std::string words = fmt::format(
            "{}: has the mode {:04o}: give it 0640 or 0600, so that its group can't write it and "
            "others can't read it",
            file.string(), mode);
        CHECK(fault_of([&] { read_private(file); }) == words);
        CHECK(fault_of([&] { check_private(file); }) == words);
        CHECK(read_public(file) == text);
    }
    CHECK_NOTHROW(check_private(folder.path() / "none"));
    CHECK_NOTHROW(check_private(""));
    CHECK(fault_of([&] { read_private(folder.path() / "none"); }) ==
          (folder.path() / "none").string() + ": No such file or directory");
    CHECK(fault_of([&] { read_public(folder.path()); }) == folder.path().string() + ": is no file");
    const fs::path pipe = folder.path() / "pipe";
    REQUIRE(::mkfifo(pipe.c_str(), 0600) == 0);
    CHECK(fault_of([&] { read_private(pipe); }) == pipe.string() + ": is no file");
}

TEST_CASE("a new file has its mode, and takes no other's place") {
    const Scratch folder("new");
    const fs::path file = folder.path() / "file";
    write_new(file, "text", 0600);
    CHECK(text_in(file) == "text");
    CHECK(mode_of(file) == 0600);
    CHECK(fault_of([&] { write_new(file, "other", 0600); }) == file.string() + ": File exists");
    CHECK(text_in(file) == "text");
    CHECK(fault_of([&] { write_new(folder.path() / "none" / "file", "", 0600); }) != "");
}

TEST_CASE("a text is put in a file's place") {
    const Scratch folder("replaced");
    const fs::path file = folder.path() / "file";
    const mode_t before = ::umask(0);
    replace_file(file, "first");
    CHECK(mode_of(file) == 0640);
    ::umask(before);
    CHECK(text_in(file) == "first");
    std::ofstream(fs::path(file.string() + ".new")) << "what an earlier end has left";
    replace_file(file, "");
    CHECK(text_in(file) == "");
    CHECK_FALSE(fs::exists(file.string() + ".new"));
    CHECK(fault_of([&] { replace_file(folder.path() / "none" / "file", ""); }) ==
          (folder.path() / "none" / "file.new").string() + ": No such file or directory");
}

TEST_CASE("what a process makes from now on is private") {
    const mode_t before = ::umask(0);
    make_files_private();
    CHECK(::umask(before) == 027);
}

struct Record {
    std::uint32_t number = 0;
    char text[4] = "";
};

TEST_CASE("records by their numbers") {
    const Scratch folder("records");
    RecordFile<Record> file(folder.path());
    CHECK(fs::is_empty(folder.path()));
    file.put(3, {33, "c"});
    file.put(1, {11, "a"});
    CHECK(file.at(3).number == 33);
    CHECK(std::string(file.at(1).text) == "a");
    CHECK(file.at(2).number == 0); // it was never put, and stands before one that was
    CHECK(file.at(9).number == 0);
    const auto some = file.some(1, 2);
    REQUIRE(some.size() == 2);
    CHECK(some[0].number == 11);
    CHECK(file.some(1, 9).size() == 3);
    CHECK(file.some(3, 1).at(0).number == 33);
    CHECK(file.some(4, 1).empty());
    CHECK_THROWS(RecordFile<Record>(folder.path() / "none"));
}

// What was put last is in memory alone, and what is read may begin in front of that.
TEST_CASE("texts behind one another") {
    const Scratch folder("texts");
    TextFile file(folder.path());
    CHECK(file.at(0, 0) == "");
    std::string all;
    for (int number = 0; number < 300; ++number) {
        const std::string text(1000, static_cast<char>('a' + number % 26));
        CHECK(file.append({text, "", std::to_string(number)}) == all.size());
        all += text + std::to_string(number);
        CHECK(file.at(0, all.size()) == all);
        CHECK(file.at(all.size() - 500, 500) == all.substr(all.size() - 500));
    }
    CHECK(file.at(1000, 1) == "0");
    CHECK(file.at(all.size(), 0) == "");
    CHECK_THROWS_WITH(file.at(all.size(), 1), "the spool was cut off");
    CHECK_THROWS_WITH(file.at(all.size() - 1, 2), "the spool was cut off");
    CHECK_THROWS_WITH(file.at(all.size() + 9, 1), "the spool was cut off");
}

TEST_CASE("bytes at a place") {
    const Scratch folder("bytes");
    const Descriptor file = open_unnamed(folder.path());
    write_at(file, 2, "abc", 3);
    std::array<char, 8> bytes{};
    CHECK(read_at(file, 1, bytes.data(), bytes.size()) == 4);
    CHECK(std::string(bytes.data(), 4) == std::string("\0abc", 4));
    CHECK(read_at(file, 3, bytes.data(), 1) == 1);
    CHECK(bytes[0] == 'b');
    CHECK(read_at(file, 5, bytes.data(), 1) == 0);
    CHECK_THROWS(write_at(Descriptor(-1), 0, "a", 1));
    CHECK_THROWS(read_at(Descriptor(-1), 0, bytes.data(), 1));
}

// FIPS 180-4 has the digest of "abc".
TEST_CASE("a copy is what it was copied from") {
    const Scratch folder("copied");
    const fs::path from = folder.path() / "from", to = folder.path() / "to";
    std::ofstream(from) << "abc";
    std::stop_source stop;
    const Digest digest = copy_file_checked(from, to, 0440, stop.get_token());
    CHECK(digest[0] == 0xba);
    CHECK(digest[31] == 0xad);
    CHECK(text_in(to) == "abc");
    CHECK(mode_of(to) == 0440);
    CHECK(sha256_of_file(to, stop.get_token()) == digest);
    CHECK(fault_of([&] { copy_file_checked(from, to, 0440, stop.get_token()); }) ==
          to.string() + ": File exists");
    std::ofstream(from) << std::string((std::size_t{1} << 20) + 1, 'x'); // more than one piece
    const fs::path other = folder.path() / "other";
    CHECK(copy_file_checked(from, other, 0600, stop.get_token()) ==
          sha256_of_file(from, stop.get_token()));
    CHECK(text_in(other) == text_in(from));
    CHECK_NOTHROW(synchronise_folder(folder.path()));
    CHECK(fault_of([&] { synchronise_folder(from); }) == from.string() + ": Not a directory");
    CHECK(fault_of([&] { sha256_of_file(folder.path() / "none", stop.get_token()); }) ==
          (folder.path() / "none").string() + ": No such file or directory");
    CHECK(fault_of([&] { sha256_of_file(folder.path(), stop.get_token()); }) ==
          folder.path().string() + ": Is a directory");
    stop.request_stop();
    CHECK(fault_of([&] { sha256_of_file(from, stop.get_token()); }) == "the gateway stops");
}

// As on a disk that keeps something else: what was copied comes from a pipe, and the copy is
// changed before the pipe ends.
TEST_CASE("a copy that is not what was read is refused") {
    const Scratch folder("copied");
    const fs::path from = folder.path() / "from", to = folder.path() / "to";
    REQUIRE(::mkfifo(from.c_str(), 0600) == 0);
    auto said = std::async(std::launch::async, [&] {
        return fault_of([&] { copy_file_checked(from, to, 0600, std::stop_token()); });
    });
    {
        std::ofstream pipe(from);
        pipe << "abc" << std::flush;
        check(comes_true([&] { return fs::exists(to) && text_in(to) == "abc"; }),
              "nothing is copied");
        std::fstream(to, std::ios::in | std::ios::out | std::ios::binary) << 'x';
    }
    CHECK(said.get() ==
          fmt::format("{} is not what {} is: look at the disk", to.string(), from.string()));
}

} // namespace gateway::tests
