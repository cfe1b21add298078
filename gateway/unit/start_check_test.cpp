// What a start would meet, found out without starting: the day, folders, programs, ports, users,
// and whether a gateway runs already.
#define DOCTEST_CONFIG_IMPLEMENT_WITH_MAIN
#include <doctest/doctest.h>

#include "base/private_file.h"
#include "comes_true.h"
#include "common/descriptor.h"
#include "health/disk_reserve.h"
#include "operator/admin_socket.h"
#include "service/start_check.h"
#include "site.h"

#include <algorithm>
#include <csignal>
#include <fstream>
#include <optional>
#include <stdexcept>
#include <string>
#include <vector>

#include <fcntl.h>
#include <fmt/format.h>
#include <netinet/in.h>
#include <spawn.h>
#include <sys/socket.h>
#include <sys/stat.h>
#include <sys/un.h>
#include <sys/wait.h>
#include <unistd.h>

namespace gateway::tests {

using Words = std::vector<std::string>;

// A configuration that is right, as long as no test changes it.
struct Right {
    Right() { config.engine.port = 0; } // any that is free

    const Site site;
    const std::string day = today();
    Config config = site.config();

    std::string day_fault(const std::string &of = today()) const {
        return fault_of([&] { check_day(config, of); });
    }
    std::string machine_fault() const {
        return fault_of([&] { check_machine(config); });
    }
    std::string start_fault(std::optional<int> running = std::nullopt) const {
        return fault_of([&] { check_start(config, day, running); });
    }
    std::string copies_fault() const {
        const auto fault = fault_of_copies(config);
        CHECK((!fault || !fault->is_read_only));
        return fault ? fault->words : "";
    }
    std::string path(const std::string &name) const { return (site / name).string(); }
};

// ---------------------------------------------------------------- the day

TEST_CASE("a configuration is of its day") {
    Right right;
    CHECK(right.day_fault() == "");
    CHECK(right.start_fault() == "");
    CHECK(right.day_fault("20200101") == fmt::format("the venue's configuration is of {}, and the "
                                                     "day is 20200101",
                                                     right.day));
    right.config.firms.date = "20200101";
    CHECK(right.start_fault() == fmt::format("the venue's configuration is of 20200101, and the "
                                             "day is {}",
                                             right.day));
}

TEST_CASE("a venue's programs are there") {
    Right right;
    right.config.command = {right.path("none"), "live"};
    CHECK(right.day_fault() == "[venue] command: there is no program " + right.path("none"));
    right.config.venue = "north";
    CHECK(right.day_fault() == "[venue.north] command: there is no program " + right.path("none"));
    right.config.command = {"no-such-program"}; // one without a slash is looked for elsewhere
    CHECK(right.day_fault() == "no-such-program: No such file or directory");
    right.config.command = {"false"};
    CHECK(right.day_fault() == "the venue's program false does not take the configuration: ended "
                               "with status 1: ");
    right.config.command = {"true"};
    CHECK(right.day_fault() == "");
    right.config.program = right.path("gone");
    const std::string gone = " program: there is no file " + right.path("gone");
    CHECK(right.day_fault() == "[venue.north]" + gone);
    CHECK(right.machine_fault() == "[venue.north]" + gone);
    right.config.venue = "";
    CHECK(right.machine_fault() == "[venue]" + gone);
    right.config.program = "no-such-program";
    CHECK(right.machine_fault() == "");
}

TEST_CASE("a configuration that the venue's program refuses") {
    Right right;
    right.site.put("venue.sh", "echo 'line 1: it is wrong' >&2\necho more >&2\nexit 3\n");
    CHECK(right.day_fault() == "the venue's program sh does not take the configuration: ended with "
                               "status 3: line 1: it is wrong");
    right.site.put("venue.sh", "cat >\"${0%/*}/seen\"\n");
    CHECK(right.day_fault() == "");
    CHECK(read_public(right.site / "seen") == right.config.configuration + "%%\n");
}

// ---------------------------------------------------------------- this machine

TEST_CASE("the reserve is less than the disk") {
    Right right;
    const std::uint64_t bytes = room_of(right.config.disk)->bytes;
    right.config.reserve = bytes - 1;
    CHECK(right.machine_fault() == "");
    right.config.reserve = bytes;
    const std::string fault =
        fmt::format("[log] reserve = {0}: the disk of {1} has {0} bytes in all, and more than the "
                    "reserve is needed",
                    bytes, right.config.disk.string());
    CHECK(right.machine_fault() == fault);
    CHECK(right.day_fault() == fault);
    right.config.disk = ""; // of a database it is not known
    CHECK(right.machine_fault() == "");
}

TEST_CASE("a log has its folder") {
    Right right;
    right.config.sqlite = right.site / "none/day.db";
    right.config.log_files = right.config.sqlite;
    CHECK(right.machine_fault() == "[log] sqlite: there is no folder " + right.path("none"));
    right.config.sqlite = right.site / "program/day.db";
    CHECK(right.machine_fault() == "[log] sqlite: there is no folder " + right.path("program"));
    right.config.sqlite = right.site / "program/in/day.db";
    CHECK(right.machine_fault() ==
          fmt::format("[log] sqlite: there is no folder {} (Not a directory)",
                      right.path("program/in")));
    // One that is named after the day is made when the day begins, and what is above it is not.
    right.config.sqlite = right.site / "20261130/day.db";
    right.config.log_files = right.site / "{date}/day.db";
    CHECK(right.machine_fault() == "");
    CHECK_FALSE(fs::exists(right.site / "20261130"));
    right.config.sqlite = right.site / "none/20261130/day.db";
    right.config.log_files = right.site / "none/{date}/day.db";
    CHECK(right.machine_fault() == "[log] sqlite: there is no folder " + right.path("none"));
    fs::create_directories(right.site / "none/20261130");
    CHECK(right.machine_fault() == "");
}

TEST_CASE("the folder of a day is made where what is above it is there") {
    Right right;
    right.config.sqlite = right.site / "logs/20261130/day.db";
    right.config.log_files = right.site / "logs/{date}/day.db";
    CHECK(fault_of([&] { open_database(right.config); }) != "");
    CHECK_FALSE(fs::exists(right.site / "logs"));
    fs::create_directory(right.site / "logs");
    CHECK(fault_of([&] { open_database(right.config); }) == "");
    CHECK(fs::exists(right.config.sqlite));
}

TEST_CASE("what sessions may have to send again has its folder") {
    Right right;
    const std::string fault = "[log] spool: there is no folder " + right.path("spool");
    right.config.spool = right.site / "spool";
    CHECK(right.machine_fault() == fault);
    right.config.checkpoints = right.config.spool; // which the gateway makes
    CHECK(right.machine_fault() == "");
    right.config.checkpoints = right.site / "checkpoints";
    right.config.sqlite = ""; // a log in PostgreSQL, and its disk
    right.config.disk = right.config.spool;
    CHECK(right.machine_fault() == fault);
    fs::create_directory(right.config.spool);
    CHECK(right.machine_fault() == "");
}

TEST_CASE("checkpoints have a folder, or one that can be made") {
    Right right;
    right.config.checkpoints = right.site / "a/b/c";
    CHECK(right.machine_fault() == "");
    CHECK_FALSE(fs::exists(right.site / "a"));
    right.site.put("a", "");
    CHECK(right.machine_fault() == "[seal] checkpoints: there is no folder " + right.path("a"));
    fs::remove(right.site / "a");
    fs::create_symlink("nowhere", right.site / "a");
    CHECK(right.machine_fault() == "[seal] checkpoints: there is no folder " + right.path("a"));
}

// What is root's nobody else may write to.
class AsNobody {
  public:
    explicit AsNobody(const Site &site) {
        fs::permissions(site / ".", fs::perms{0755});
        if (::geteuid() == 0) {
            REQUIRE(::setresuid(65534, 0, 0) == 0);
        }
    }
    ~AsNobody() {
        // Of a process that was not root it is refused, and changes nothing.
        [[maybe_unused]] const int back = ::setresuid(0, 0, 0);
    }
    AsNobody(const AsNobody &) = delete;
    AsNobody &operator=(const AsNobody &) = delete;
};

TEST_CASE("folders may be written to, and those that are read be read") {
    Right right;
    right.config.copies = right.site / "copies";
    right.config.sealed = right.site / "sealed";
    for (const fs::path &folder : {right.config.copies, right.config.sealed}) {
        fs::create_directory(folder);
    }
    const auto modes = [&](unsigned copies, unsigned sealed) {
        fs::permissions(right.config.copies, fs::perms{copies});
        fs::permissions(right.config.sealed, fs::perms{sealed});
        const AsNobody nobody(right.site);
        return right.copies_fault();
    };
    CHECK(modes(0777, 0555) == "");
    CHECK(modes(0555, 0555) ==
          fmt::format("[copies] folder {}: Permission denied", right.path("copies")));
    CHECK(modes(0777, 0111) ==
          fmt::format("[copies] sealed {}: Permission denied", right.path("sealed")));
    CHECK(modes(0777, 0444) != "");
    right.config.sqlite = right.config.copies / "day.db";
    right.config.log_files = right.config.sqlite;
    fs::permissions(right.config.copies, fs::perms{0555});
    const AsNobody nobody(right.site);
    CHECK(right.machine_fault() ==
          fmt::format("[log] sqlite {}: Permission denied", right.path("copies")));
}

TEST_CASE("days are copied where there is a folder for them") {
    Right right;
    CHECK(right.copies_fault() == "");
    right.config.sealed = right.site / "sealed";
    CHECK(right.copies_fault() == "[copies] sealed: there is no folder " + right.path("sealed"));
    CHECK(right.start_fault() == right.copies_fault());
    CHECK(right.machine_fault() == ""); // a start goes well
    right.config.copies = right.site / "copies";
    CHECK(right.copies_fault() == "[copies] folder: there is no folder " + right.path("copies"));
    fs::create_directory(right.site / "copies");
    fs::create_directory(right.site / "sealed");
    CHECK(right.copies_fault() == "");
}

// ---------------------------------------------------------------- the operator

TEST_CASE("the operator's socket has its place") {
    Right right;
    const std::string longest(longest_socket_path - right.path("").size(), 'x');
    right.config.operator_socket = right.site / longest;
    CHECK(right.machine_fault() == "");
    right.config.operator_socket = right.site / (longest + "x");
    CHECK(right.machine_fault() == fmt::format("[operator] socket: {} has more than {} bytes",
                                               right.path(longest + "x"), longest_socket_path));
    right.config.operator_socket = right.site / "program";
    CHECK(right.machine_fault() ==
          fmt::format("[operator] socket: something stands at {} that is no socket",
                      right.path("program")));
    right.config.operator_socket = right.site / "none/s";
    CHECK(right.machine_fault() == "[operator] socket: there is no folder " + right.path("none"));
    right.config.operator_socket = "/run/mireseason-none/s"; // which systemd makes
    CHECK(right.machine_fault() == "");
    right.config.operator_socket = "/mireseason-none/run/s";
    CHECK(right.machine_fault() == "[operator] socket: there is no folder /mireseason-none/run");
    const std::string path = right.path("s");
    const Descriptor socket(::socket(AF_UNIX, SOCK_STREAM | SOCK_CLOEXEC, 0));
    sockaddr_un address{};
    address.sun_family = AF_UNIX;
    std::copy(path.begin(), path.end(), std::begin(address.sun_path));
    REQUIRE(::bind(socket.number(), reinterpret_cast<const sockaddr *>(&address), sizeof address) ==
            0);
    right.config.operator_socket = path; // what a gateway before has left
    CHECK(right.machine_fault() == "");
}

TEST_CASE("the operators' group is one of the system's") {
    Right right;
    right.config.operator_group = "root";
    CHECK(right.machine_fault() == "");
    right.config.operator_group = "no-such-group";
    CHECK(right.machine_fault() ==
          "[operator] group = \"no-such-group\": the system has no group no-such-group");
}

TEST_CASE("sessions have an address, and certificates that can be used") {
    Right right;
    right.config.engine.address = "localhost";
    CHECK(right.machine_fault() == "localhost:0: no address of IPv4");
    CHECK(right.day_fault() == "localhost:0: no address of IPv4");
    right.config.engine.address = "127.0.0.1";
    right.config.engine.certificate = right.path("program");
    right.config.engine.key = right.path("program");
    CHECK(right.machine_fault() != "");
}

// ---------------------------------------------------------------- ports

// At a port of the loopback, until it is destroyed.
class Listening {
  public:
    Listening() : socket_(::socket(AF_INET, SOCK_STREAM | SOCK_CLOEXEC, 0)) {
        sockaddr_in place{};
        place.sin_family = AF_INET;
        place.sin_addr.s_addr = htonl(INADDR_LOOPBACK);
        socklen_t size = sizeof place;
        REQUIRE(::bind(socket_.number(), reinterpret_cast<sockaddr *>(&place), size) == 0);
        REQUIRE(::listen(socket_.number(), 1) == 0);
        REQUIRE(::getsockname(socket_.number(), reinterpret_cast<sockaddr *>(&place), &size) == 0);
        port = ntohs(place.sin_port);
    }

    std::uint16_t port = 0;

  private:
    Descriptor socket_;
};

TEST_CASE("sessions and metrics have a port each") {
    Right right;
    right.config.engine.port = right.config.metrics_port = 9878;
    const std::string same = "[metrics] port = 9878: [fix] port is the same";
    CHECK(right.machine_fault() == same);
    right.config.engine.address = "0.0.0.0";
    CHECK(right.machine_fault() == same);
    right.config.engine.address = "127.0.0.2";
    CHECK(right.machine_fault() == "");
    right.config.engine.address = "127.0.0.1";
    right.config.metrics_port = 9879;
    CHECK(right.machine_fault() == "");
    right.config.engine.port = right.config.metrics_port = 0;
    CHECK(right.machine_fault() == "");
}

// But the gateway that runs, which gives it up.
TEST_CASE("nobody else has a port") {
    Right right;
    CHECK(right.start_fault() == "");
    const Listening other;
    const auto faults = [&](const std::string &fault) {
        CHECK(right.start_fault() == fault);
        CHECK(right.start_fault(::getppid()) == fault);
        CHECK(right.start_fault(::getpid()) == "");
        CHECK(right.start_fault(1 << 30) == ""); // it may have it
    };
    right.config.engine.port = other.port;
    faults(fmt::format("[fix] port 127.0.0.1:{}: Address already in use", other.port));
    right.config.engine.address = "127.0.0.2";
    CHECK(right.start_fault() == "");
    right.config.engine.port = 0;
    right.config.metrics_port = other.port;
    faults(fmt::format("[metrics] port 127.0.0.1:{}: Address already in use", other.port));
}

// ---------------------------------------------------------------- doubts and firms

TEST_CASE("a gateway whose own key is not listed") {
    Right right;
    CHECK(doubts_about(right.config).empty());
    make_keys(right.site / "others", {"other"});
    right.config.keys = read_seal_keys({right.site / "keys/seal.key",
                                        right.site / "keys/gateway.pem",
                                        {right.site / "others/other.pub"}});
    CHECK(doubts_about(right.config) ==
          Words{"[seal] gateways: none of them is the public key of signing_key. Add it: whoever "
                "checks a day by these keys accepts no signature of this gateway"});
}

TEST_CASE("firms that can't log on on a day") {
    Right right;
    CHECK(kept_out(right.config, right.day) == Words{});
    right.config.credentials["DLR1"].ends = "20261130";
    CHECK(kept_out(right.config, "20261130") == Words{});
    right.config.credentials.erase("INV1");
    CHECK(kept_out(right.config, "20261201") ==
          Words{"DLR1 can't log on: its credentials held to 20261130",
                "INV1 can't log on: it has no credentials"});
    right.config.certification.is_needed = true;
    right.config.certification.key = std::make_shared<const SigningKey>(
        SigningKey::public_of(read_public(right.site / "keys/gateway.pub"), "key"));
    CHECK(kept_out(right.config, "20261130") ==
          Words{"DLR1 can't log on unless an act of the day admits it: no report of it was "
                "admitted",
                "INV1 can't log on: it has no credentials"});
}

// ---------------------------------------------------------------- who runs, and as whom

// A process that has these words, and waits until it is destroyed: it reads a pipe `pipe`, to which
// nobody writes.
class Running {
  public:
    Running(Words words, const fs::path &folder, const char *program = "/bin/cat") {
        posix_spawn_file_actions_t actions;
        posix_spawn_file_actions_init(&actions);
        posix_spawn_file_actions_addchdir_np(&actions, folder.c_str());
        posix_spawn_file_actions_addopen(&actions, STDIN_FILENO, "pipe", O_RDWR, 0);
        std::vector<char *> arguments;
        for (std::string &word : words) {
            arguments.push_back(word.data());
        }
        arguments.push_back(nullptr);
        REQUIRE(::posix_spawn(&process, program, &actions, nullptr, arguments.data(), environ) ==
                0);
        posix_spawn_file_actions_destroy(&actions);
        // Until it has its words.
        REQUIRE(comes_true([this] {
            return std::ifstream(fmt::format("/proc/{}/cmdline", process)).peek() != EOF;
        }));
    }
    ~Running() {
        ::kill(process, SIGKILL);
        ::waitpid(process, nullptr, 0);
    }
    Running(const Running &) = delete;
    Running &operator=(const Running &) = delete;

    pid_t process = 0;
};

TEST_CASE("a gateway that runs with a configuration's file") {
    const Site site;
    const fs::path pipe = site / "pipe", other = site / "other";
    REQUIRE(::mkfifo(pipe.c_str(), 0600) == 0);
    REQUIRE(::mkfifo(other.c_str(), 0600) == 0);
    const std::string gateway = "/usr/sbin/mireseason-gateway";
    const auto is_found = [&](const Words &words) {
        const Running running(words, site / ".");
        const auto found = running_gateway(pipe);
        CHECK((!found || *found == running.process));
        return found.has_value();
    };
    CHECK_FALSE(running_gateway(pipe));
    CHECK(is_found({gateway, pipe.string()}));
    CHECK(is_found({"mireseason-gateway", pipe.string()}));
    CHECK(is_found({gateway, "pipe"})); // from its own folder
    CHECK(is_found({gateway, (site / "keys/../pipe").string()}));
    CHECK_FALSE(is_found({gateway, other.string()}));
    CHECK_FALSE(is_found({gateway, pipe.string(), other.string()}));
    CHECK_FALSE(is_found({"/usr/sbin/gateway", pipe.string()}));
    CHECK_FALSE(is_found({"mireseason-gateway/cat", pipe.string()}));
    CHECK_FALSE(running_gateway(site / "none"));
    // An option is no file, whatever stands there.
    site.put("-s", "");
    const Running option({gateway, "-s"}, site / ".", "/bin/sh");
    CHECK_FALSE(running_gateway(site / "-s"));
}

TEST_CASE("root starts no gateway for another user") {
    Right right;
    const bool is_root = ::geteuid() == 0;
    const auto fault = [&] { return fault_of([&] { check_user(right.config); }); };
    const auto is_of = [&](const fs::path &folder) {
        const std::string begin = fmt::format("{} belongs to nobody(65534), who ", folder.string());
        return !is_root || fault().starts_with(begin);
    };
    const auto give = [&](const fs::path &folder) {
        fs::create_directories(folder);
        REQUIRE((!is_root || ::chown(folder.c_str(), 65534, 65534) == 0));
    };
    CHECK(fault() == "");
    give(right.site / "logs");
    right.config.sqlite = right.site / "logs/20261130/day.db";
    right.config.log_files = right.site / "logs/{date}/day.db";
    CHECK(is_of(right.site / "logs"));
    right.config.sqlite = right.site / "logs/day.db";
    right.config.log_files = right.config.sqlite;
    CHECK(is_of(right.site / "logs"));
    right.config.checkpoints = right.site / "kept";
    right.config.sqlite = "";
    right.config.log_files = "";
    CHECK(fault() == ""); // it is not there
    give(right.site / "kept");
    CHECK(is_of(right.site / "kept"));
}

} // namespace gateway::tests
