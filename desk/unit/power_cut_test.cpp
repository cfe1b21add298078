// Tests what of a journal is safe against a power cut, and when: it notes each synchronisation when
// the desk asks for it.
#include <doctest/doctest.h>

#include "file_store.h"
#include "journal.h"
#include "record.h"
#include "unit.h"

#include <algorithm>
#include <chrono>
#include <deque>
#include <filesystem>
#include <fstream>
#include <functional>
#include <future>
#include <string>
#include <vector>

#include <nlohmann/json.hpp>
#include <sys/syscall.h>
#include <unistd.h>

using namespace desk;
using desk_tests::entry;
using desk_tests::Folder;

namespace {

// Is told the name of each file that is synchronised, before it is.
std::function<void(const std::string &name)> listener;

void note(int file) {
    if (listener) {
        listener(std::filesystem::read_symlink("/proc/self/fd/" + std::to_string(file)));
    }
}

// Listens for as long as it lives.
class Listening {
  public:
    explicit Listening(std::function<void(const std::string &)> to) { listener = std::move(to); }
    ~Listening() { listener = nullptr; }
    Listening(const Listening &) = delete;
    Listening &operator=(const Listening &) = delete;
};

} // namespace

// In the place of the system's own.
extern "C" int fsync(int file) {
    note(file);
    return static_cast<int>(::syscall(SYS_fsync, file));
}

extern "C" int fdatasync(int file) {
    note(file);
    return static_cast<int>(::syscall(SYS_fdatasync, file));
}

TEST_CASE("what is put aside is safe, with its name, before it is cut off the journal") {
    const Folder folder;
    const std::string path = folder.file("journal");
    {
        Journal journal(path, [](const Entry &) {});
        journal.write(entry(Entry::Kind::received, 1, "35=AI|34=1|"));
    }
    const auto whole = std::filesystem::file_size(path);
    std::ofstream(path, std::ios::binary | std::ios::app) << "no record";
    const auto length = std::filesystem::file_size(path);
    std::vector<std::string> safe; // while the journal had all of it
    {
        const Listening listening([&](const std::string &name) {
            if (std::filesystem::file_size(path) == length) {
                safe.push_back(name);
            }
        });
        const Journal journal(path, [](const Entry &) {});
    }
    CHECK(std::filesystem::file_size(path) == whole);
    const auto aside = std::find(safe.begin(), safe.end(), path + ".cut");
    REQUIRE(aside != safe.end());
    const std::string place = std::filesystem::path(path).parent_path();
    CHECK(std::find(aside, safe.end(), place) != safe.end());
}

TEST_CASE("that a message will never be delivered is safe once it was said, as what leaves is") {
    const Folder folder;
    Record record(folder.file(""), [] {});
    const std::string journal = "journal-" + record.date();
    int safe = 0;
    const Listening listening([&](const std::string &name) {
        safe += std::filesystem::path(name).filename() == journal ? 1 : 0;
    });
    record.keep(1, true, desk_tests::fix("35=R|34=1|"));
    CHECK(safe == 1);
    record.undelivered(1);
    CHECK(safe == 2);
    record.received(desk_tests::fix("35=AI|34=1|")); // what came is asked for again
    CHECK(safe == 2);
}

TEST_CASE("whoever takes what happened does not wait for the disk") {
    const Folder folder;
    Record record(folder.file(""), [] {});
    const std::string journal = "journal-" + record.date();
    std::future<std::deque<Happening>> taken;
    bool is_free = false;
    {
        const Listening listening([&](const std::string &name) { // the disk has not answered yet
            if (std::filesystem::path(name).filename() == journal) {
                taken = std::async(std::launch::async, [&] { return record.take(); });
                is_free = taken.wait_for(std::chrono::seconds(20)) == std::future_status::ready;
            }
        });
        record.keep(1, true, desk_tests::fix("35=R|34=1|"));
    }
    CHECK(is_free);
    CHECK(taken.get().size() == 1);
}

TEST_CASE("a file that has another name is safe, and its name then") {
    const Folder folder;
    const std::string path = folder.file("sessions.json");
    std::vector<std::string> safe;
    {
        const Listening listening([&](const std::string &name) { safe.push_back(name); });
        write_json(path, {{"one", 1}});
    }
    const std::string place = std::filesystem::path(path).parent_path();
    CHECK(safe == std::vector<std::string>{path + ".new", place});
    CHECK(read_json(path) == nlohmann::json{{"one", 1}});
}

TEST_CASE("a journal that a second one of its day puts aside is safe before that begins") {
    const Folder folder;
    Record record(folder.file(""), [] {});
    const std::filesystem::path journal = folder.file("journal-" + record.date());
    std::vector<bool> has_begun; // the second one, at each synchronisation of the folder
    {
        const Listening listening([&](const std::string &name) {
            if (name == journal.parent_path()) {
                has_begun.push_back(std::filesystem::exists(journal));
            }
        });
        record.begin_day();
    }
    CHECK(std::filesystem::exists(journal.string() + ".1"));
    CHECK(has_begun == std::vector<bool>{false, true});
}

TEST_CASE("a journal that can't be read is not cut") {
    const Folder folder;
    const std::string path = folder.file("journal");
    std::filesystem::create_symlink("/proc/self/mem", path); // whose first byte can't be
    CHECK_THROWS_WITH(Journal(path, [](const Entry &) {}),
                      (path + " can't be read: Input/output error").c_str());
}
