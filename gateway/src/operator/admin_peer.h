// Who is at the other end of a local socket.
#ifndef GATEWAY_OPERATOR_ADMIN_PEER_H
#define GATEWAY_OPERATOR_ADMIN_PEER_H

#include <optional>
#include <string>

#include <sys/types.h>

namespace gateway {

struct AdminPeer {
    uid_t user = 0;
    std::string who;  // NAME(UID), without spaces and quotation marks
    bool may = false; // root, the gateway's own user, and whoever is in the group
};

// As the kernel has it (SO_PEERCRED, SO_PEERGROUPS): of when the socket was connected. Nothing
// where it does not say.
std::optional<AdminPeer> peer_of(int socket, std::optional<gid_t> group);

// NAME(UID): the name has letters, digits and `._-` alone, and 32 of them at most.
std::string who_is(uid_t user);

// Throws std::runtime_error where the system has no group of the name.
gid_t group_named(const std::string &name);

} // namespace gateway

#endif
