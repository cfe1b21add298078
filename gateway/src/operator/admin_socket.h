// The operator's socket: it decides who may connect, how much it reads, and how long anything may
// take.
#ifndef GATEWAY_OPERATOR_ADMIN_SOCKET_H
#define GATEWAY_OPERATOR_ADMIN_SOCKET_H

#include "base/limiter.h"
#include "common/descriptor.h"
#include "operator/admin_peer.h"

#include <atomic>
#include <filesystem>
#include <functional>
#include <list>
#include <memory>
#include <optional>
#include <string>
#include <string_view>
#include <thread>
#include <utility>

#include <spdlog/logger.h>
#include <sys/un.h>

namespace gateway {

// As the system has it of a socket of the file system.
constexpr std::size_t longest_socket_path = sizeof sockaddr_un{}.sun_path - 1;

// A socket of the file system, of mode 0660, that belongs to a group where one is named. Whoever
// may not is told so and closed, and so is one for whom the system has no thread. A connection
// brings one line, is answered, and is closed: it has a thread, of which there are 16 at a time,
// and of one user 4.
class AdminSocket final {
  public:
    // What a line is answered; it may take some seconds, and throws nothing.
    using Answer = std::function<std::string(const std::string &who, const std::string &line)>;

    // Writes bytes; throws std::runtime_error where they are not taken in time.
    using Put = std::function<void(std::string_view bytes)>;
    // Answers a line by a stream; false where its answer is a text. Throws what `put` throws.
    using Stream = std::function<bool(uid_t user, const std::string &line, const Put &put)>;

    // Throws std::runtime_error where another process listens there, where something stands there
    // that is no socket, and where the group is none, or one that this process may not give it to.
    AdminSocket(std::filesystem::path path, const std::string &group, Answer answer,
                std::shared_ptr<spdlog::logger> events, Stream stream = {});
    // Takes no more, waits for the lines that are being answered, and removes the file.
    ~AdminSocket();
    AdminSocket(const AdminSocket &) = delete;
    AdminSocket &operator=(const AdminSocket &) = delete;

  private:
    struct Visit {
        Visit(uid_t who, Descriptor taken) : user(who), connection(std::move(taken)) {}

        uid_t user;
        Descriptor connection; // of the thread, once it has begun
        std::atomic<bool> is_over{false};
        std::jthread thread;
    };

    void open();
    void run(const std::stop_token &stop);
    void take(Descriptor connection);
    // Why a connection of this user is not taken; empty where it is.
    std::string too_many(uid_t user);
    void visit(const std::stop_token &stop, const Descriptor &connection, const AdminPeer &peer);
    // Whether the line is answered by a stream, as far as it is taken.
    bool answer_by_stream(const std::stop_token &stop, const Descriptor &connection,
                          const AdminPeer &peer, const std::string &line);
    void refuse(const Descriptor &connection, const std::string &who, const std::string &why);

    const std::filesystem::path path_;
    const std::optional<gid_t> group_;
    const Answer answer_;
    const Stream stream_;
    const std::shared_ptr<spdlog::logger> events_;
    Limiter lines_;
    Descriptor listening_;
    std::list<Visit> visits_; // of the thread that takes connections
    std::jthread thread_;
};

} // namespace gateway

#endif
