// Finds by /proc which sockets listen at the port, and whether the process has one of them.
#include "service/own_port.h"

#include <algorithm>
#include <filesystem>
#include <fstream>
#include <set>
#include <sstream>
#include <string>
#include <string_view>

#include <fmt/format.h>

namespace gateway {

namespace {

namespace fs = std::filesystem;

constexpr std::string_view listens = "0A";

// What a line of /proc/net/tcp has: its number, two addresses, its state, five other words, and
// the number of the socket.
struct Row {
    std::string local;
    std::string state;
    std::string socket;
};

Row row_of(const std::string &line) {
    std::istringstream words(line);
    Row row;
    std::string other;
    words >> other >> row.local >> other >> row.state;
    for (int count = 0; count < 5; ++count) {
        words >> other;
    }
    words >> row.socket;
    return row;
}

// As a process's open files name them.
std::set<std::string> sockets_at(std::uint16_t port) {
    const std::string end = fmt::format(":{:04X}", port);
    std::set<std::string> sockets;
    for (const char *table : {"/proc/net/tcp", "/proc/net/tcp6"}) {
        std::ifstream lines(table);
        for (std::string line; std::getline(lines, line);) {
            const Row row = row_of(line);
            if (row.state == listens && row.local.ends_with(end)) {
                sockets.insert(fmt::format("socket:[{}]", row.socket));
            }
        }
    }
    return sockets;
}

} // namespace

std::optional<bool> listens_at(int process, std::uint16_t port) {
    const std::set<std::string> sockets = sockets_at(port);
    std::error_code fault;
    const fs::directory_iterator files(fmt::format("/proc/{}/fd", process), fault);
    if (fault) {
        return std::nullopt;
    }
    return std::any_of(begin(files), end(files), [&](const fs::directory_entry &file) {
        std::error_code gone;
        return sockets.contains(fs::read_symlink(file.path(), gone).string());
    });
}

} // namespace gateway
