// What is read from the files of a gateway: addresses, credentials, firms' rows, a day's hours; and
// looks at what may not answer.
#define DOCTEST_CONFIG_IMPLEMENT_WITH_MAIN
#include <doctest/doctest.h>

#include "check.h"
#include "common/descriptor.h"
#include "config/address_range.h"
#include "config/config.h"
#include "config/config_files.h"
#include "config/credentials.h"
#include "config/firm_row.h"
#include "config/log_location.h"
#include "config/start_configuration.h"
#include "no_threads.h"
#include "service/day_hours.h"
#include "service/own_port.h"
#include "service/patient_look.h"

#include <fstream>
#include <future>
#include <stdexcept>
#include <string>
#include <system_error>

#include <netinet/in.h>
#include <sys/socket.h>
#include <sys/stat.h>
#include <unistd.h>

namespace gateway::tests {

namespace fs = std::filesystem;
using namespace std::chrono_literals;

TEST_CASE("a range has the addresses with its bits") {
    const auto has = [](const char *range, const char *address) {
        const auto read = address_range_of(range);
        REQUIRE(read);
        return read->has(address);
    };
    CHECK(has("192.0.2.7", "192.0.2.7"));
    CHECK_FALSE(has("192.0.2.7", "192.0.2.6"));
    CHECK(has("192.0.2.0/24", "192.0.2.255"));
    CHECK_FALSE(has("192.0.2.0/24", "192.0.3.0"));
    CHECK(has("192.0.2.128/25", "192.0.2.129"));
    CHECK_FALSE(has("192.0.2.128/25", "192.0.2.127"));
    CHECK(has("0.0.0.0/0", "255.255.255.255"));
    CHECK(has("192.0.2.7/32", "192.0.2.7"));
    CHECK_FALSE(has("0.0.0.0/0", "::1"));
    CHECK_FALSE(has("0.0.0.0/0", ""));
    for (const char *none : {"192.0.2", "192.0.2.7/33", "192.0.2.7/24", "192.0.2.0/", "192.0.2.0/x",
                             "192.0.2.0/24x", "192.0.2.0/-1", "/24", "", "::1"}) {
        CHECK_FALSE_MESSAGE(address_range_of(none), none);
    }
}

constexpr const char *venue = R"(
[[bond]]
id = "BONDA"
[[dealer]]
name = "DLR1"
traders = ["T1", "T2"]
[[dealer]]
name = "DLR2"
traders = ["T3"]
[[investor]]
name = "INV1"
traders = ["V1"]
)";

TEST_CASE("a firm's row") {
    CHECK(firm_row(venue, "DLR1").is_dealer);
    CHECK(firm_row(venue, "DLR1").traders == std::vector<std::string>{"T1", "T2"});
    CHECK(firm_row(venue, "DLR2").traders == std::vector<std::string>{"T3"});
    CHECK_FALSE(firm_row(venue, "INV1").is_dealer);
    CHECK(firm_row(venue, "INV1").traders == std::vector<std::string>{"V1"});
    CHECK(fault_of([] { firm_row(venue, "INV2"); }) == "the venue has no firm INV2");
    CHECK(has_bond(venue, "BONDA"));
    CHECK_FALSE(has_bond(venue, "BONDB"));
    CHECK_FALSE(has_bond("", "BONDA"));
}

struct Credited {
    Scratch folder{"credentials"};
    fs::path file = folder.path() / "credentials.toml";

    std::map<std::string, Credentials> of(const std::string &text, mode_t mode = 0600) const {
        std::ofstream(file) << text;
        ::chmod(file.c_str(), mode);
        ConfigFiles files;
        return credentials_of({"DLR1", "INV1"}, venue, file, files);
    }
    // What is wrong, without the file's name.
    std::string fault(const std::string &more, const std::string &firm = "DLR1") const {
        const std::string text = "[" + firm + "]\nusername = \"u\"\npassword = \"$6$salt$hash\"\n";
        const std::string told = fault_of([&] { of(text + more + "\n"); });
        const std::string begin = file.string() + ": ";
        return told.starts_with(begin) ? told.substr(begin.size()) : told;
    }
};

TEST_CASE("credentials have what a firm may do") {
    const Credited credited;
    const auto all = credited.of(R"(
[DLR1]
username = "one"
password = "$6$salt$hash"
cancel_on_disconnect = "T2"
day_bytes = 7
ends = "20261231"
addresses = ["192.0.2.1", "198.51.100.0/24"]
[INV1]
username = "two"
password = "$6$salt$hash"
[NEW1]
username = "three"
password = "$6$salt$hash"
cancel_on_disconnect = "of tomorrow"
)");
    REQUIRE(all.size() == 2);
    const Credentials &one = all.at("DLR1");
    CHECK(one.username == "one");
    CHECK(one.password_hash == "$6$salt$hash");
    CHECK(one.cancel_on_disconnect == "T2");
    CHECK(one.day_bytes == 7);
    CHECK(one.ends == "20261231");
    REQUIRE(one.addresses.size() == 2);
    CHECK(one.addresses[1].has("198.51.100.9"));
    CHECK(all.at("INV1").username == "two");
    CHECK(all.at("INV1").day_bytes == 0);
    CHECK(all.at("INV1").addresses.empty());
    CHECK(all.at("INV1").cancel_on_disconnect.empty());
}

TEST_CASE("credentials that are none are told with their line") {
    const Credited credited;
    CHECK(credited.fault("") == "");
    CHECK(credited.fault("cancel_on_disconnect = \"T3\"") ==
          "line 4: [DLR1] cancel_on_disconnect is T3: there is no dealer DLR1 with such a trader");
    CHECK(credited.fault("cancel_on_disconnect = \"V1\"", "INV1") ==
          "line 4: [INV1] cancel_on_disconnect is V1: there is no dealer INV1 with such a trader");
    CHECK(credited.fault("addresses = [\"192.0.2.1\", \"none\"]") ==
          "line 4: [DLR1] addresses has none, which is no address of IPv4, and no A.B.C.D/BITS");
    CHECK(credited.fault("addresses = []") == "line 4: [DLR1] addresses is no list of words");
    CHECK(credited.fault("addresses = [1]") == "line 4: [DLR1] addresses is no list of words");
    CHECK(credited.fault("ends = \"2026123\"") == "line 4: [DLR1] ends is no date YYYYMMDD");
    CHECK(credited.fault("report = \"x\"") ==
          "line 4: [DLR1] report is no line of a report: mireseason-admin admit writes it");
    CHECK(credited.fault("day_bytes = -1") ==
          "line 4: [DLR1] day_bytes is not from 0 to 1099511627776");
    CHECK(credited.fault("day_bytes = 1099511627776") == "");
    CHECK(credited.fault("day_bytes = 1099511627777") ==
          "line 4: [DLR1] day_bytes is not from 0 to 1099511627776");
    CHECK(credited.fault("day_bytes = \"1\"") ==
          "line 4: [DLR1] day_bytes has to be a whole number");
    CHECK(credited.fault("other = 1") == "line 4: [DLR1] other is no key");
    CHECK(credited.fault("other = 1", "NEW1") == "line 4: [NEW1] other is no key");
    const auto fault = [&](const std::string &text, mode_t mode = 0600) {
        return fault_of([&] { credited.of(text, mode); });
    };
    CHECK(fault("") == credited.file.string() + ": has nothing in it");
    CHECK(fault("[DLR1]\nusername = \"u\"\n") ==
          credited.file.string() + ": [DLR1] password is missing");
    CHECK(fault("[DLR1]\nusername = \"\"\n") ==
          credited.file.string() + ": line 2: [DLR1] username is missing");
    CHECK(fault("[DLR1]\nusername = \"u\"\npassword = \"plain\"\n") ==
          credited.file.string() + ": line 3: [DLR1] password is no hash: --hash makes one");
    CHECK(fault("[DLR1]\n", 0644).find("has the mode 0644") != std::string::npos);
}

TEST_CASE("files differ where a text is another") {
    const Scratch folder("files");
    const fs::path one = folder.path() / "one", two = folder.path() / "two";
    std::ofstream(one) << "1";
    std::ofstream(two) << "2";
    ConfigFiles before;
    CHECK(before.text(one) == "1");
    CHECK(before.text(two) == "2");
    CHECK_FALSE(before.differ_now());
    std::ofstream(one) << "changed";
    CHECK(before.text(one) == "1");
    CHECK(before.differ_now());
    ConfigFiles now;
    now.text(one);
    now.text(two);
    CHECK_FALSE(now == before);
    CHECK(now.differ_only_in(one, before));
    CHECK_FALSE(now.differ_only_in(two, before));
    CHECK_FALSE(before.differ_only_in(one, before));
    CHECK_FALSE(now.differ_only_in(folder.path() / "none", before));
    now.set(two, "other");
    CHECK_FALSE(now.differ_only_in(one, before));
    fs::remove(two);
    std::ofstream(one) << "1";
    CHECK(before.differ_now());
    CHECK(fault_of([&] { now.text(folder.path() / "none"); }) ==
          (folder.path() / "none").string() + ": can't be read");
    std::ofstream(two) << std::string((1 << 20) + 1, ' ');
    ConfigFiles large;
    CHECK(fault_of([&] { large.text(two); }) == two.string() + ": it has more than 1048576 bytes");
}

TEST_CASE("a configuration as its operator wrote it") {
    CHECK(as_written("date = \"20261130\"\nversion = 1\n", "20261130") == "version = 1\n");
    CHECK(as_written("date = \"20261129\"\n", "20261130") == "date = \"20261129\"\n");
    CHECK(as_written("version = 1\n", "20261130") == "version = 1\n");
}

TEST_CASE("what is above a log's folder that is named after its day") {
    Config config;
    config.log_files = "/srv/logs/{date}/day.db";
    CHECK(above_folder_of_day(config) == "/srv/logs");
    config.log_files = "/srv/logs/of-{date}/north/day.db";
    CHECK(above_folder_of_day(config) == "/srv/logs");
    config.log_files = "/srv/logs/day-{date}.db";
    CHECK(above_folder_of_day(config) == "");
}

struct Hours {
    Scratch folder{"hours"};
    std::vector<Config> configs{Config()};
    SystemSeconds midnight = midnight_of("20261130");
    TradingDay kept{"20261130", midnight + 7h, midnight + 16h, midnight + 17h};

    Hours() { configs[0].checkpoints = folder.path(); }

    void write(const std::string &name, const std::string &text) const {
        std::ofstream(folder.path() / name) << text;
    }
    std::optional<TradingDay> at(SystemSeconds now, const TradingDay &by_rules) const {
        return day_that_goes_on(configs, by_rules, now);
    }
};

TEST_CASE("a day's hours are read as they were kept") {
    const Hours hours;
    CHECK_FALSE(kept_hours(hours.configs[0]));
    keep_hours(hours.configs[0], hours.kept);
    const auto read = kept_hours(hours.configs[0]);
    REQUIRE(read);
    CHECK(read->date == "20261130");
    CHECK(read->opens == hours.kept.opens);
    CHECK(read->closes == hours.kept.closes);
    CHECK(read->ends == hours.kept.ends);
    const auto count = [&](std::chrono::seconds from_midnight) {
        return (hours.midnight + from_midnight).time_since_epoch().count();
    };
    const auto is_read = [&](std::int64_t opens, std::int64_t closes, std::int64_t ends,
                             const char *date = "20261130", const char *word = "day") {
        hours.write("day.hours", fmt::format("{} {}\nopens {}\ncloses {}\nends {}\n", word, date,
                                             opens, closes, ends));
        return kept_hours(hours.configs[0]).has_value();
    };
    CHECK(is_read(count(0h), count(1s), count(24h)));
    CHECK_FALSE(is_read(count(-1s), count(1h), count(24h)));
    CHECK_FALSE(is_read(count(1h), count(1h), count(24h)));
    CHECK(is_read(count(1h), count(2h), count(2h)));
    CHECK_FALSE(is_read(count(1h), count(2h), count(2h) - 1));
    CHECK_FALSE(is_read(count(1h), count(2h), count(24h) + 1));
    CHECK_FALSE(is_read(count(1h), count(2h), count(3h), "2026113"));
    CHECK_FALSE(is_read(count(1h), count(2h), count(3h), "20261130", "date"));
    hours.write("day.hours", "day 20261130\nopens 1\ncloses 2\n");
    CHECK_FALSE(kept_hours(hours.configs[0]));
}

TEST_CASE("a day that began goes on by the hours that it began with") {
    const Hours hours;
    const TradingDay next{"20261201", hours.midnight + 31h, hours.midnight + 40h,
                          hours.midnight + 41h};
    keep_hours(hours.configs[0], hours.kept);
    CHECK_FALSE(hours.at(hours.midnight + 8h, next)); // no checkpoint says that it goes on
    hours.write("day-20261130.checkpoint", "end yes\nend no\nsignature x\n");
    CHECK(goes_on(hours.configs[0], "20261130"));
    CHECK_FALSE(goes_on(hours.configs[0], "20261129"));
    REQUIRE(hours.at(hours.midnight + 8h, next));
    CHECK(hours.at(hours.midnight + 8h, next)->ends == hours.kept.ends);
    CHECK(hours.at(hours.midnight + 7h, next));
    CHECK_FALSE(hours.at(hours.midnight + 7h - 1s, next));
    CHECK(hours.at(hours.midnight + 17h - 1s, next));
    CHECK_FALSE(hours.at(hours.midnight + 17h, next));
    // The rules of now say of the same day that it opens later, and ends later.
    const TradingDay later{"20261130", hours.midnight + 9h, hours.midnight + 18h,
                           hours.midnight + 19h};
    const auto same = hours.at(hours.midnight + 8h, later);
    REQUIRE(same);
    CHECK(same->opens == hours.kept.opens);
    CHECK(same->closes == later.closes);
    CHECK(same->ends == later.ends);
    CHECK_FALSE(hours.at(hours.midnight + 9h, later)); // by them it is open
    hours.write("day-20261130.checkpoint", "end no\nend yes\nsignature x\n");
    CHECK_FALSE(hours.at(hours.midnight + 8h, next));
}

// Of several venues the file of the first has them, for all; each says for itself that it goes on.
TEST_CASE("a day of several venues goes on by the hours of the first") {
    Hours hours;
    hours.configs[0].venue = "north";
    hours.configs.push_back(hours.configs[0]);
    hours.configs[1].venue = "south";
    const TradingDay next{"20261201", hours.midnight + 31h, hours.midnight + 40h,
                          hours.midnight + 41h};
    keep_hours(hours.configs[0], hours.kept);
    CHECK_FALSE(hours.at(hours.midnight + 8h, next));
    hours.write("south-20261130.checkpoint", "end yes\nend no\nsignature x\n");
    const auto day = hours.at(hours.midnight + 8h, next);
    REQUIRE(day);
    CHECK(day->ends == hours.kept.ends);
}

TEST_CASE("who listens at a port") {
    const Descriptor socket(::socket(AF_INET, SOCK_STREAM | SOCK_CLOEXEC, 0));
    sockaddr_in place{};
    place.sin_family = AF_INET;
    place.sin_addr.s_addr = htonl(INADDR_LOOPBACK);
    socklen_t size = sizeof place;
    REQUIRE(::bind(socket.number(), reinterpret_cast<sockaddr *>(&place), size) == 0);
    REQUIRE(::getsockname(socket.number(), reinterpret_cast<sockaddr *>(&place), &size) == 0);
    const std::uint16_t port = ntohs(place.sin_port);
    CHECK(listens_at(::getpid(), port) == false);
    REQUIRE(::listen(socket.number(), 1) == 0);
    CHECK(listens_at(::getpid(), port) == true);
    CHECK(listens_at(1 << 30, port) == std::nullopt);
}

TEST_CASE("a look that does not end is left alone") {
    std::promise<void> may_end;
    auto until = std::make_shared<std::shared_future<void>>(may_end.get_future().share());
    CHECK(found_soon<int>("quick", [] { return 7; }) == 7);
    CHECK_THROWS(found_soon<int>("quick", []() -> int { throw std::runtime_error("no"); }));
    CHECK_FALSE(ends_soon("slow", [until] { until->wait(); }));
    CHECK_FALSE(found_soon<int>("slow", [] { return 7; })); // one of a name at a time
    CHECK(ends_soon("other", [] {}));
    may_end.set_value();
    CHECK(ends_soon("slow", [] {}));
}

// It keeps no later one of its name from its thread.
TEST_CASE("a look for which there is no thread") {
    {
        const NoThreads none;
        CHECK_THROWS_AS(ends_soon("without", [] {}), std::system_error);
    }
    CHECK(ends_soon("without", [] {}));
}

} // namespace gateway::tests
