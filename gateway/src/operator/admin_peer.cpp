#include "operator/admin_peer.h"

#include <algorithm>
#include <array>
#include <stdexcept>
#include <vector>

#include <fmt/format.h>
#include <grp.h>
#include <pwd.h>
#include <sys/socket.h>
#include <unistd.h>

namespace gateway {

namespace {

// More groups than a user has on any system that one works with.
constexpr std::size_t most_groups = 65536;

std::optional<std::vector<gid_t>> groups_of(int socket) {
    std::vector<gid_t> groups(64);
    for (;;) {
        auto size = static_cast<socklen_t>(groups.size() * sizeof(gid_t));
        if (::getsockopt(socket, SOL_SOCKET, SO_PEERGROUPS, groups.data(), &size) == 0) {
            groups.resize(size / sizeof(gid_t));
            return groups;
        }
        if (errno != ERANGE || groups.size() >= most_groups) {
            return std::nullopt;
        }
        groups.resize(groups.size() * 2);
    }
}

bool stands_in_a_name(char c) {
    return (c >= 'a' && c <= 'z') || (c >= 'A' && c <= 'Z') || (c >= '0' && c <= '9') || c == '.' ||
           c == '_' || c == '-';
}

// At most 32 bytes, as useradd lets a name have.
std::string name_of(uid_t user) {
    std::array<char, 4096> room{};
    passwd entry{};
    passwd *found = nullptr;
    if (::getpwuid_r(user, &entry, room.data(), room.size(), &found) != 0 || found == nullptr) {
        return "nobody";
    }
    std::string name = std::string(entry.pw_name).substr(0, 32);
    std::replace_if(
        name.begin(), name.end(), [](char c) { return !stands_in_a_name(c); }, '?');
    return name;
}

} // namespace

std::string who_is(uid_t user) {
    return fmt::format("{}({})", name_of(user), user);
}

std::optional<AdminPeer> peer_of(int socket, std::optional<gid_t> group) {
    ucred peer{};
    socklen_t size = sizeof peer;
    if (::getsockopt(socket, SOL_SOCKET, SO_PEERCRED, &peer, &size) != 0) {
        return std::nullopt;
    }
    const auto groups = groups_of(socket);
    const bool is_member =
        group && (peer.gid == *group ||
                  (groups && std::find(groups->begin(), groups->end(), *group) != groups->end()));
    return AdminPeer{peer.uid, who_is(peer.uid),
                     peer.uid == 0 || peer.uid == ::geteuid() || is_member};
}

gid_t group_named(const std::string &name) {
    std::vector<char> room(65536);
    group entry{};
    group *found = nullptr;
    if (::getgrnam_r(name.c_str(), &entry, room.data(), room.size(), &found) != 0 ||
        found == nullptr) {
        throw std::runtime_error(
            fmt::format("[operator] group = \"{0}\": the system has no group {0}", name));
    }
    return entry.gr_gid;
}

} // namespace gateway
