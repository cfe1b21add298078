#include "operator/admin_socket.h"

#include "base/printable.h"
#include "operator/admin_words.h"

#include <algorithm>
#include <array>
#include <chrono>
#include <stdexcept>
#include <system_error>
#include <utility>

#include <fcntl.h>
#include <fmt/format.h>
#include <poll.h>
#include <sys/socket.h>
#include <sys/stat.h>
#include <sys/un.h>

namespace gateway {

namespace {

using namespace std::chrono_literals;
using Clock = std::chrono::steady_clock;

constexpr std::size_t most_visits = 16;
constexpr std::size_t most_visits_of_a_user = 4;

// In which a whole line has to come, and in which an answer has to be taken.
constexpr auto longest_line_time = 2s;
constexpr auto longest_answer_time = 2s;
// The same of a piece of a stream.
constexpr auto longest_piece_time = 10s;

// Between two looks whether to stop.
constexpr auto look = 100ms;

constexpr mode_t mode = 0660;

[[noreturn]] void fail(const std::filesystem::path &path, const std::string &what) {
    throw std::runtime_error(fmt::format("[operator] socket {}: {}", path.string(), what));
}

[[noreturn]] void fail_by_system(const std::filesystem::path &path) {
    fail(path, std::generic_category().message(errno));
}

sockaddr_un address_of(const std::filesystem::path &path) {
    sockaddr_un address{};
    address.sun_family = AF_UNIX;
    const std::string text = path.string();
    if (text.size() > longest_socket_path) {
        fail(path, fmt::format("has more than {} bytes", longest_socket_path));
    }
    std::copy(text.begin(), text.end(), std::begin(address.sun_path));
    return address;
}

bool is_listened_at(const sockaddr_un &address) {
    const Descriptor probe(::socket(AF_UNIX, SOCK_STREAM | SOCK_CLOEXEC, 0));
    return ::connect(probe.number(), reinterpret_cast<const sockaddr *>(&address),
                     sizeof address) == 0;
}

// What a gateway that was killed has left.
void remove_old(const std::filesystem::path &path, const sockaddr_un &address) {
    if (!std::filesystem::exists(std::filesystem::symlink_status(path))) {
        return;
    }
    if (!std::filesystem::is_socket(std::filesystem::symlink_status(path))) {
        fail(path, "something stands there that is no socket");
    }
    if (is_listened_at(address)) {
        fail(path, "another gateway listens there");
    }
    std::filesystem::remove(path);
}

// Whether it is ready before the moment; false too where the socket is to stop.
bool wait_for(const Descriptor &socket, short event, Clock::time_point until,
              const std::stop_token &stop) {
    while (!stop.stop_requested() && Clock::now() < until) {
        pollfd wanted{socket.number(), event, 0};
        if (::poll(&wanted, 1, static_cast<int>(look.count())) > 0) {
            return true;
        }
    }
    return false;
}

struct Line {
    std::string text;  // without its line feed
    std::string fault; // why there is none
};

// What stands behind the line feed is nobody's: one line is answered.
Line read_line(const Descriptor &connection, const std::stop_token &stop) {
    Line line;
    const auto until = Clock::now() + longest_line_time;
    std::array<char, longest_request> bytes{};
    while (wait_for(connection, POLLIN, until, stop)) {
        const ssize_t count = ::recv(connection.number(), bytes.data(), bytes.size(), MSG_DONTWAIT);
        if (count <= 0) {
            line.fault = "no whole line came";
            return line;
        }
        line.text.append(bytes.data(), static_cast<std::size_t>(count));
        const std::size_t end = line.text.find('\n');
        if (std::min(end, line.text.size()) >= longest_request) {
            line.fault = fmt::format("the line has more than {} bytes", longest_request);
            return line;
        }
        if (end != std::string::npos) {
            line.text.resize(end);
            return line;
        }
    }
    line.fault = fmt::format("no whole line came within {} s", longest_line_time.count());
    return line;
}

// What is not taken until then is left out.
void write(const Descriptor &connection, std::string_view &text, Clock::time_point until,
           const std::stop_token &stop) {
    while (!text.empty() && wait_for(connection, POLLOUT, until, stop)) {
        const ssize_t count =
            ::send(connection.number(), text.data(), text.size(), MSG_DONTWAIT | MSG_NOSIGNAL);
        if (count < 0) {
            return;
        }
        text.remove_prefix(static_cast<std::size_t>(count));
    }
}

} // namespace

AdminSocket::AdminSocket(std::filesystem::path path, const std::string &group, Answer answer,
                         std::shared_ptr<spdlog::logger> events, Stream stream)
    : path_(std::move(path)),
      group_(group.empty() ? std::nullopt : std::optional(group_named(group))),
      answer_(std::move(answer)), stream_(std::move(stream)), events_(std::move(events)) {
    open();
    thread_ = std::jthread([this](const std::stop_token &stop) { run(stop); });
}

AdminSocket::~AdminSocket() {
    thread_.request_stop();
    if (thread_.joinable()) {
        thread_.join();
    }
    visits_.clear();
    std::error_code nothing;
    std::filesystem::remove(path_, nothing);
}

// The process's umask lets nobody but its own group in until the mode stands.
void AdminSocket::open() {
    const sockaddr_un address = address_of(path_);
    remove_old(path_, address);
    listening_ = Descriptor(::socket(AF_UNIX, SOCK_STREAM | SOCK_CLOEXEC | SOCK_NONBLOCK, 0));
    if (listening_.number() < 0 ||
        ::bind(listening_.number(), reinterpret_cast<const sockaddr *>(&address), sizeof address) !=
            0) {
        fail_by_system(path_);
    }
    if (group_ && ::chown(path_.c_str(), static_cast<uid_t>(-1), *group_) != 0) {
        fail(path_,
             "this process may not give it to the group: it has to be a member itself, and its "
             "unit has to allow chown (SystemCallFilter=@chown)");
    }
    if (::chmod(path_.c_str(), mode) != 0 || ::listen(listening_.number(), most_visits) != 0) {
        fail_by_system(path_);
    }
}

void AdminSocket::run(const std::stop_token &stop) {
    while (!stop.stop_requested()) {
        visits_.remove_if([](const Visit &visit) { return visit.is_over.load(); });
        if (!wait_for(listening_, POLLIN, Clock::now() + look, stop)) {
            continue;
        }
        Descriptor connection(
            ::accept4(listening_.number(), nullptr, nullptr, SOCK_CLOEXEC | SOCK_NONBLOCK));
        if (connection.number() >= 0) {
            take(std::move(connection));
        } else {
            // Without a file for it, it waits.
            std::this_thread::sleep_for(look);
        }
    }
}

void AdminSocket::take(Descriptor connection) {
    const auto peer = peer_of(connection.number(), group_);
    if (!peer || !peer->may) {
        refuse(connection, peer ? peer->who : "unknown",
               "you may not: this is for root, the gateway's user and its operators' group");
        return;
    }
    const std::string why = too_many(peer->user);
    if (!why.empty()) {
        refuse(connection, peer->who, why);
        return;
    }
    Visit &made = visits_.emplace_back(peer->user, std::move(connection));
    try {
        made.thread = std::jthread([this, &made, who = *peer](const std::stop_token &stop) {
            visit(stop, made.connection, who);
            made.connection.close();
            made.is_over = true;
        });
    } catch (const std::system_error &fault) {
        refuse(made.connection, peer->who,
               fmt::format("there is no thread for you: {}: try again in a moment", fault.what()));
        visits_.pop_back();
    }
}

std::string AdminSocket::too_many(uid_t user) {
    visits_.remove_if([](const Visit &visit) { return visit.is_over.load(); });
    const auto own = std::count_if(visits_.begin(), visits_.end(),
                                   [user](const Visit &visit) { return visit.user == user; });
    if (static_cast<std::size_t>(own) >= most_visits_of_a_user) {
        return fmt::format("you have {} connections already: try again in a moment", own);
    }
    if (visits_.size() >= most_visits) {
        return fmt::format("there are {} connections already: try again in a moment", most_visits);
    }
    return "";
}

void AdminSocket::visit(const std::stop_token &stop, const Descriptor &connection,
                        const AdminPeer &peer) {
    const Line line = read_line(connection, stop);
    if (!line.fault.empty()) {
        refuse(connection, peer.who, line.fault);
        return;
    }
    if (answer_by_stream(stop, connection, peer, line.text)) {
        return;
    }
    const std::string answer = answer_(peer.who, line.text);
    std::string_view left = answer;
    write(connection, left, Clock::now() + longest_answer_time, stop);
}

bool AdminSocket::answer_by_stream(const std::stop_token &stop, const Descriptor &connection,
                                   const AdminPeer &peer, const std::string &line) {
    const auto put = [&](std::string_view bytes) {
        write(connection, bytes, Clock::now() + longest_piece_time, stop);
        if (!bytes.empty()) {
            throw std::runtime_error("it is not taken");
        }
    };
    try {
        const bool is_stream = stream_ && stream_(peer.user, line, put);
        if (is_stream) {
            events_->info("operator took who={} what=\"{}\"", peer.who, printable(line, 40));
        }
        return is_stream;
    } catch (const std::exception &fault) {
        events_->warn("operator did not take who={} what=\"{}\" cause=\"{}\"", peer.who,
                      printable(line, 40), fault.what());
        return true;
    }
}

// The line goes into the socket's own room: nobody is waited for.
void AdminSocket::refuse(const Descriptor &connection, const std::string &who,
                         const std::string &why) {
    const std::string text = fmt::format("{}{}\n", answer_is_error, why);
    ::send(connection.number(), text.data(), text.size(), MSG_DONTWAIT | MSG_NOSIGNAL);
    const Limiter::Answer asked = lines_.ask("operator");
    if (asked.told) {
        events_->warn("operator refused who={} left_out={} cause=\"{}\"", who, asked.left_out, why);
    }
}

} // namespace gateway
