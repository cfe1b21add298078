// What systemd is told: by which socket, of which watchdog, and what the service says of itself.
#define DOCTEST_CONFIG_IMPLEMENT_WITH_MAIN
#include <doctest/doctest.h>

#include "check.h"
#include "common/descriptor.h"
#include "service/systemd_notifier.h"
#include "service/systemd_socket.h"

#include <algorithm>
#include <array>
#include <atomic>
#include <chrono>
#include <cstddef>
#include <cstdlib>
#include <iterator>
#include <map>
#include <optional>
#include <stdexcept>
#include <string>
#include <utility>
#include <vector>

#include <fmt/format.h>
#include <sys/socket.h>
#include <sys/time.h>
#include <sys/un.h>
#include <unistd.h>

namespace gateway::tests {

using namespace std::chrono_literals;
using Words = std::vector<std::string>;
using Variables = std::map<std::string, std::string>;

// In the place of systemd, at an address as NOTIFY_SOCKET has it.
class Systemd {
  public:
    explicit Systemd(std::string name)
        : socket_(::socket(AF_UNIX, SOCK_DGRAM | SOCK_CLOEXEC, 0)), name_(name) {
        sockaddr_un address{};
        address.sun_family = AF_UNIX;
        if (name.front() == '@') {
            name.front() = '\0';
        }
        std::copy(name.begin(), name.end(), std::begin(address.sun_path));
        const auto size = static_cast<socklen_t>(offsetof(sockaddr_un, sun_path) + name.size());
        REQUIRE(::bind(socket_.number(), reinterpret_cast<const sockaddr *>(&address), size) == 0);
        const timeval longest{20, 0};
        ::setsockopt(socket_.number(), SOL_SOCKET, SO_RCVTIMEO, &longest, sizeof longest);
    }

    const std::string &name() const { return name_; }
    // The next one that comes.
    std::string told() const { return received(0); }
    bool is_told_nothing() const { return received(MSG_DONTWAIT).empty(); }

  private:
    std::string received(int flags) const {
        std::array<char, 1024> bytes{};
        const ssize_t count = ::recv(socket_.number(), bytes.data(), bytes.size(), flags);
        return count < 0 ? "" : std::string(bytes.data(), static_cast<std::size_t>(count));
    }

    Descriptor socket_;
    std::string name_;
};

SystemdSocket socket_with(const Variables &variables) {
    for (const auto &[name, value] : variables) {
        ::setenv(name.c_str(), value.c_str(), 1);
    }
    SystemdSocket socket;
    for (const char *name : {"NOTIFY_SOCKET", "WATCHDOG_USEC", "WATCHDOG_PID"}) {
        CHECK_MESSAGE(std::getenv(name) == nullptr, name);
    }
    return socket;
}

// ---------------------------------------------------------------- the socket

TEST_CASE("a service that systemd has not started") {
    const SystemdSocket none = socket_with({});
    CHECK_FALSE(none.is_there());
    none.send("READY=1");
    const SystemdSocket other = socket_with({{"WATCHDOG_USEC", "1000000"}, {"WATCHDOG_PID", "1"}});
    CHECK_FALSE(other.is_there());
    CHECK_FALSE(other.watchdog());
    CHECK_FALSE(socket_with({{"NOTIFY_SOCKET", ""}}).is_there());
}

TEST_CASE("a socket is a path, or an abstract name") {
    const Scratch folder("systemd");
    for (const std::string &name :
         {(folder.path() / "s").string(), "@" + (folder.path() / "s").string()}) {
        const Systemd systemd(name);
        const SystemdSocket socket = socket_with({{"NOTIFY_SOCKET", name}});
        CHECK(socket.is_there());
        CHECK_FALSE(socket.watchdog());
        socket.send("READY=1");
        CHECK(systemd.told() == "READY=1");
        socket.send("STATUS=a\nWATCHDOG=1");
        CHECK(systemd.told() == "STATUS=a\nWATCHDOG=1");
    }
    const SystemdSocket gone = socket_with({{"NOTIFY_SOCKET", "/none/s"}});
    gone.send("READY=1"); // nobody listens there
}

TEST_CASE("names that are no address of a socket") {
    const std::size_t room = sizeof sockaddr_un{}.sun_path;
    for (const std::string &name :
         {std::string("run/s"), std::string("vsock:2:1"), "/" + std::string(room - 1, 'x'),
          "@" + std::string(room - 1, 'x')}) {
        std::string fault;
        try {
            socket_with({{"NOTIFY_SOCKET", name}});
        } catch (const std::runtime_error &told) {
            fault = told.what();
        }
        CHECK(fault == fmt::format("NOTIFY_SOCKET={}: no address of a socket", name));
    }
    CHECK(socket_with({{"NOTIFY_SOCKET", "/" + std::string(room - 2, 'x')}}).is_there());
}

TEST_CASE("a watchdog is of this process, and waits for some time") {
    struct Case {
        const char *microseconds;
        std::string process;
        std::optional<std::chrono::microseconds> time;
    };
    const std::string own = std::to_string(::getpid());
    for (const Case &each : {
             Case{"3000000", "", 3s},
             Case{"3000000", own, 3s},
             Case{"1", own, 1us},
             Case{"3000000", "1", {}},
             Case{"3000000", own + "0", {}},
             Case{"0", own, {}},
             Case{"-1", own, {}},
             Case{"", own, {}},
             Case{"x", own, {}},
             Case{"30s", own, {}},
             Case{"99999999999999999999", own, {}},
         }) {
        const SystemdSocket socket = socket_with({{"NOTIFY_SOCKET", "@mireseason-none"},
                                                  {"WATCHDOG_USEC", each.microseconds},
                                                  {"WATCHDOG_PID", each.process}});
        CHECK_MESSAGE(socket.watchdog() == each.time,
                      fmt::format("`{}` `{}`", each.microseconds, each.process));
    }
}

// ---------------------------------------------------------------- what it says

// A service that is so at each look, and stays as it was at the last one.
class Looks {
  public:
    explicit Looks(std::vector<Condition> all) : all_(std::move(all)) {}

    Condition operator()() {
        const std::size_t now = count_++;
        return all_[std::min(now, all_.size() - 1)];
    }
    std::size_t count() const { return count_; }

  private:
    std::vector<Condition> all_;
    std::atomic<std::size_t> count_{0};
};

Condition condition(Phase phase, std::optional<Liveness::Silent> silent = {}) {
    return {phase, "a day", std::move(silent)};
}
Liveness::Silent silent_for(std::chrono::steady_clock::duration time) {
    Liveness::Silent silent;
    silent.part = "the log";
    silent.time = time;
    return silent;
}

// What is told in its order, and nothing behind it but that it stops.
void tells(std::vector<Condition> all, Variables variables, const Words &wanted) {
    const Scratch folder("systemd");
    const Systemd systemd(folder.path() / "s");
    variables["NOTIFY_SOCKET"] = systemd.name();
    Looks looks(std::move(all));
    {
        const SystemdNotifier notifier(socket_with(variables), [&looks] { return looks(); });
        for (const std::string &words : wanted) {
            CHECK(systemd.told() == words);
        }
    }
    CHECK(systemd.told() == "STOPPING=1");
    CHECK(systemd.is_told_nothing());
}

// A quarter of what the watchdog waits for lies between two looks, and a part may be silent for
// half of it.
TEST_CASE("a service says how it is") {
    tells({condition(Phase::opens), condition(Phase::opens), condition(Phase::ready),
           condition(Phase::ready, silent_for(20ms - 1us)), condition(Phase::opens),
           condition(Phase::ready, silent_for(20ms))},
          {{"WATCHDOG_USEC", "40000"}},
          {"STATUS=opens: a day", "EXTEND_TIMEOUT_USEC=60000000", "EXTEND_TIMEOUT_USEC=60000000",
           "STATUS=ready: a day", "READY=1", "WATCHDOG=1", "WATCHDOG=1", "STATUS=opens: a day",
           "WATCHDOG=1", "STATUS=ready: a day"});
}

TEST_CASE("a service is ready once it has come to where it is to be") {
    for (const auto &[phase, word] :
         {std::pair(Phase::closed, "closed"), std::pair(Phase::stands_by, "stands by")}) {
        tells({condition(phase, silent_for(500ms))}, {{"WATCHDOG_USEC", "1000000"}},
              {fmt::format("STATUS={}: a day", word), "READY=1"});
    }
    tells({condition(Phase::ends, silent_for(500ms))}, {{"WATCHDOG_USEC", "1000000"}},
          {"STATUS=ends: a day"});
}

TEST_CASE("a service that nobody watches shows life for half a minute") {
    const std::string silent = "STATUS=the log has not worked for {} s (ready: a day)";
    tells({condition(Phase::ready, silent_for(30s - 1us))}, {},
          {fmt::format(fmt::runtime(silent), 29), "READY=1", "WATCHDOG=1"});
    tells({condition(Phase::ready, silent_for(30s))}, {},
          {fmt::format(fmt::runtime(silent), 30), "READY=1"});
}

TEST_CASE("nobody is told where there is no systemd") {
    Looks looks({condition(Phase::ready)});
    {
        const SystemdNotifier notifier(socket_with({}), [&looks] { return looks(); });
    }
    CHECK(looks.count() == 0);
}

} // namespace gateway::tests
