// The operator's socket: one line, and its whole answer; who has too many connections; one for whom
// there is no thread; and where no socket can be.
#define DOCTEST_CONFIG_IMPLEMENT_WITH_MAIN
#include <doctest/doctest.h>

#include "check.h"
#include "common/descriptor.h"
#include "no_threads.h"
#include "operator/admin_peer.h"
#include "operator/admin_socket.h"
#include "operator/admin_words.h"
#include "rest_of.h"

#include <algorithm>
#include <cstring>
#include <filesystem>
#include <fstream>
#include <memory>
#include <stdexcept>
#include <string>
#include <vector>

#include <fmt/format.h>
#include <spdlog/logger.h>
#include <sys/socket.h>
#include <sys/stat.h>
#include <sys/un.h>
#include <unistd.h>

namespace gateway::tests {

namespace fs = std::filesystem;

sockaddr_un address_of(const fs::path &path) {
    sockaddr_un address{};
    address.sun_family = AF_UNIX;
    const std::string text = path.string();
    check(text.size() <= longest_socket_path, "the folder's name is too long");
    std::copy(text.begin(), text.end(), std::begin(address.sun_path));
    return address;
}

Descriptor connected_to(const fs::path &path) {
    Descriptor socket(::socket(AF_UNIX, SOCK_STREAM | SOCK_CLOEXEC, 0));
    const sockaddr_un address = address_of(path);
    check(::connect(socket.number(), reinterpret_cast<const sockaddr *>(&address),
                    sizeof address) == 0,
          "nobody listens");
    return socket;
}

struct Asked {
    explicit Asked(const std::string &group = "")
        : socket(
              path, group,
              [](const std::string &who, const std::string &line) {
                  return line == "long" ? std::string(1 << 20, 'x') : who + " " + line;
              },
              std::make_shared<spdlog::logger>("none")) {}

    std::string says(const std::string &bytes) const {
        const Descriptor connection = connected_to(path);
        check(::send(connection.number(), bytes.data(), bytes.size(), MSG_NOSIGNAL) ==
                  static_cast<ssize_t>(bytes.size()),
              "it takes nothing");
        return rest_of(connection);
    }

    const Scratch folder{"socket"};
    const fs::path path = folder.path() / "s";
    AdminSocket socket;
};

TEST_CASE("one line is answered, and whole") {
    const Asked asked;
    const std::string own = who_is(::geteuid());
    CHECK(asked.says("a b\n") == own + " a b");
    CHECK(asked.says("a\nb\n") == own + " a");
    CHECK(asked.says("\n") == own + " ");
    CHECK(asked.says("long\n") == std::string(1 << 20, 'x'));
    const std::string longest(longest_request - 1, 'y');
    CHECK(asked.says(longest + "\n") == own + " " + longest);
    const std::string too_long =
        fmt::format("error\nthe line has more than {} bytes\n", longest_request);
    CHECK(asked.says(longest + "y") == too_long);
    const Descriptor half = connected_to(asked.path);
    CHECK(::send(half.number(), "a", 1, 0) == 1);
    CHECK(::shutdown(half.number(), SHUT_WR) == 0);
    CHECK(rest_of(half) == "error\nno whole line came\n");
}

TEST_CASE("a user has four connections at a time") {
    const Asked asked;
    std::vector<Descriptor> waiting;
    for (int count = 0; count < 4; ++count) {
        waiting.push_back(connected_to(asked.path));
    }
    const Descriptor fifth = connected_to(asked.path);
    CHECK(rest_of(fifth) == "error\nyou have 4 connections already: try again in a moment\n");
    // The first of them is answered all the same.
    CHECK(::send(waiting[0].number(), "a\n", 2, 0) == 2);
    CHECK(rest_of(waiting[0]) == who_is(::geteuid()) + " a");
}

// More often than a user may have connections: none of them is left.
TEST_CASE("without a thread a connection is refused, and the next one is answered") {
    const Asked asked;
    {
        const NoThreads none;
        for (int count = 0; count < 6; ++count) {
            const Descriptor connection = connected_to(asked.path);
            CHECK(rest_of(connection) == "error\nthere is no thread for you: Resource temporarily "
                                         "unavailable: try again in a moment\n");
        }
    }
    CHECK(asked.says("a b\n") == who_is(::geteuid()) + " a b");
}

TEST_CASE("a socket has its mode, and goes with its gateway") {
    const Scratch folder("socket");
    const fs::path path = folder.path() / "s";
    {
        const AdminSocket socket(
            path, "", [](const std::string &, const std::string &) { return ""; },
            std::make_shared<spdlog::logger>("none"));
        struct stat found {};
        REQUIRE(::stat(path.c_str(), &found) == 0);
        CHECK((found.st_mode & 0777U) == 0660);
        CHECK(S_ISSOCK(found.st_mode));
    }
    CHECK_FALSE(fs::exists(path));
}

TEST_CASE("where no socket can be") {
    const Scratch folder("socket");
    const auto fault = [](const fs::path &path, const std::string &group) {
        try {
            const AdminSocket socket(
                path, group, [](const std::string &, const std::string &) { return ""; },
                std::make_shared<spdlog::logger>("none"));
            return std::string();
        } catch (const std::runtime_error &fault) {
            return std::string(fault.what());
        }
    };
    const fs::path path = folder.path() / "s", none = folder.path() / "none/s";
    const std::string begin = "[operator] socket ";
    CHECK(fault(none, "") == begin + none.string() + ": No such file or directory");
    CHECK(fault(none, "root") == begin + none.string() + ": No such file or directory");
    std::ofstream(path) << "x";
    CHECK(fault(path, "") == begin + path.string() + ": something stands there that is no socket");
    fs::remove(path);
    const fs::path long_path = folder.path() / std::string(longest_socket_path, 'x');
    CHECK(fault(long_path, "") == fmt::format("{}{}: has more than {} bytes", begin,
                                              long_path.string(), longest_socket_path));
    CHECK(fault(path, "no-such-group").find("no-such-group") != std::string::npos);
    {
        // What a gateway that was killed has left.
        const Descriptor left(::socket(AF_UNIX, SOCK_STREAM | SOCK_CLOEXEC, 0));
        const sockaddr_un address = address_of(path);
        REQUIRE(::bind(left.number(), reinterpret_cast<const sockaddr *>(&address),
                       sizeof address) == 0);
    }
    CHECK(fault(path, "") == "");
    const Descriptor other(::socket(AF_UNIX, SOCK_STREAM | SOCK_CLOEXEC, 0));
    const sockaddr_un address = address_of(path);
    REQUIRE(::bind(other.number(), reinterpret_cast<const sockaddr *>(&address), sizeof address) ==
            0);
    REQUIRE(::listen(other.number(), 1) == 0);
    CHECK(fault(path, "") == begin + path.string() + ": another gateway listens there");
}

} // namespace gateway::tests
