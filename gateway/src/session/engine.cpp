#include "session/engine.h"

#include "session/connection.h"
#include "session/firm_session.h"
#include "session/last_right_tls.h"
#include "session/refusal_words.h"
#include "session/sessions.h"
#include "session/strangers.h"

#include <algorithm>
#include <cerrno>
#include <cstring>
#include <list>
#include <stdexcept>

#include <arpa/inet.h>
#include <netinet/in.h>
#include <netinet/tcp.h>
#include <poll.h>
#include <sys/eventfd.h>
#include <sys/resource.h>
#include <sys/socket.h>

namespace gateway {

namespace {

using std::chrono::milliseconds;

// How long sessions have to answer a Logout.
constexpr auto farewell = std::chrono::seconds(4);

// A peer that has said nothing for so many seconds is asked by TCP whether it is there. So one
// whose machine or line is gone is found out, and its firm can come on another connection, however
// long the heartbeat is that it has asked for.
constexpr int silent_seconds = 10;
constexpr int between_probes = 5;
constexpr int probes = 3;
constexpr int gone_milliseconds = (silent_seconds + probes * between_probes) * 1000;

std::runtime_error fault_of(const std::string &what) {
    return std::runtime_error(what + ": " + std::strerror(errno));
}

// Without the port.
std::string host_of(const sockaddr_in &address) {
    char text[INET_ADDRSTRLEN] = "";
    ::inet_ntop(AF_INET, &address.sin_addr, text, sizeof text);
    return text;
}

void set_option(const Descriptor &socket, int level, int option, int value) {
    if (::setsockopt(socket.number(), level, option, &value, sizeof value) != 0) {
        throw fault_of("an option of a connection");
    }
}

void watch_peer(const Descriptor &socket) {
    set_option(socket, SOL_SOCKET, SO_KEEPALIVE, 1);
    set_option(socket, IPPROTO_TCP, TCP_KEEPIDLE, silent_seconds);
    set_option(socket, IPPROTO_TCP, TCP_KEEPINTVL, between_probes);
    set_option(socket, IPPROTO_TCP, TCP_KEEPCNT, probes);
    // The same for bytes that are not acknowledged.
    set_option(socket, IPPROTO_TCP, TCP_USER_TIMEOUT, gone_milliseconds);
}

// Has the process open as many files as it may.
rlimit allow_most_descriptors() {
    rlimit limit{};
    if (::getrlimit(RLIMIT_NOFILE, &limit) != 0) {
        throw fault_of("the limit of open files");
    }
    limit.rlim_cur = limit.rlim_max;
    if (::setrlimit(RLIMIT_NOFILE, &limit) != 0) {
        throw fault_of("the limit of open files");
    }
    return limit;
}

// Looks whether that is enough. Each connection takes two, and strangers that make room have theirs
// until they have ended. Each session has two for what it may have to send again (log/spool.h),
// each venue its log and its process; and there is the rest.
void allow_descriptors(std::size_t strangers, const Sessions &sessions) {
    constexpr std::size_t of_connection = 2;
    constexpr std::size_t of_session = 2;
    constexpr std::size_t of_venue = 32;
    constexpr std::size_t others = 64;
    const std::size_t needed = of_connection * (2 * strangers + sessions.count()) +
                               of_session * sessions.count() + of_venue * sessions.venues() +
                               others;
    const rlimit limit = allow_most_descriptors();
    if (limit.rlim_cur < needed) {
        throw std::runtime_error("the process may open " + std::to_string(limit.rlim_cur) +
                                 " files, and needs " + std::to_string(needed) + " for " +
                                 std::to_string(strangers) + " strangers and " +
                                 std::to_string(sessions.count()) + " sessions");
    }
}

} // namespace

class Engine::Parts {
  public:
    Parts(const EngineSettings &settings, const std::vector<SessionStart> &starts,
          EngineEvents &events)
        : settings_(settings), events_(events), bell_(::eventfd(0, EFD_CLOEXEC | EFD_NONBLOCK)),
          tls_(last_right_tls_of(settings_)),
          strangers_(settings_.strangers, settings_.strangers_per_address),
          sessions_(starts, events_) {
        if (bell_.number() < 0) {
            throw fault_of("no event descriptor");
        }
        // Before a day opens the files of its sessions.
        allow_most_descriptors();
    }
    ~Parts() { stop(""); }

    void listen(ListeningPort port) {
        allow_descriptors(settings_.strangers, sessions_);
        port_ = port.is_at(settings_) ? std::move(port) : ListeningPort();
        // Another one that was given is closed before.
        port = ListeningPort();
        if (!port_.is_open()) {
            port_ = ListeningPort(settings_);
        }
        thread_ = std::thread([this] { run(); });
    }

    ListeningPort give_port() {
        end_taking();
        return std::move(port_);
    }

    void add(const std::vector<SessionStart> &starts) { sessions_.add(starts); }
    const Sessions &sessions() const { return sessions_; }
    EngineEvents &events() const { return events_; }

    void renew(const EngineSettings &settings) {
        std::shared_ptr<const TlsServer> renewed = tls_of_now(settings);
        if (settings.certificate.empty() != settings_.certificate.empty()) {
            throw std::runtime_error("[tls] can't begin or end while the gateway runs");
        }
        {
            const std::lock_guard<std::mutex> lock(mutex_);
            renewed_ = std::move(renewed);
        }
        ring();
    }

    void stop(const std::string &reason) {
        end_taking();
        port_ = ListeningPort();
        if (!reason.empty()) {
            say_farewell(reason);
        }
        connections_.clear();
    }

  private:
    void end_taking() {
        stopping_ = true;
        ring();
        if (thread_.joinable()) {
            thread_.join();
        }
    }

    void ring() {
        const std::uint64_t one = 1;
        const ssize_t written = ::write(bell_.number(), &one, sizeof one);
        static_cast<void>(written);
    }

    void take_renewed() {
        std::uint64_t rung = 0;
        const ssize_t count = ::read(bell_.number(), &rung, sizeof rung);
        static_cast<void>(count);
        std::shared_ptr<const TlsServer> renewed;
        {
            const std::lock_guard<std::mutex> lock(mutex_);
            renewed.swap(renewed_);
        }
        if (renewed) {
            tls_ = renewed;
            for (const auto &connection : connections_) {
                connection->renew(renewed);
            }
        }
    }

    void say_farewell(const std::string &reason) {
        for (const auto &connection : connections_) {
            connection->shut_stranger("the gateway stops");
        }
        sessions_.log_out(reason);
        const auto latest = std::chrono::steady_clock::now() + farewell;
        const auto all_ended = [this] {
            return std::all_of(
                connections_.begin(), connections_.end(),
                [](const std::unique_ptr<Connection> &each) { return each->has_ended(); });
        };
        while (!all_ended() && std::chrono::steady_clock::now() < latest) {
            std::this_thread::sleep_for(milliseconds(20));
        }
    }

    void run() {
        while (!stopping_) {
            pollfd set[2] = {{port_.number(), POLLIN, 0}, {bell_.number(), POLLIN, 0}};
            ::poll(set, 2, 1000);
            connections_.remove_if(
                [](const std::unique_ptr<Connection> &each) { return each->has_ended(); });
            if ((set[1].revents & POLLIN) != 0) {
                take_renewed();
            }
            if ((set[0].revents & POLLIN) != 0 && !stopping_) {
                accept();
            }
        }
    }

    void accept() {
        sockaddr_in address{};
        socklen_t size = sizeof address;
        Descriptor socket(::accept4(port_.number(), reinterpret_cast<sockaddr *>(&address), &size,
                                    SOCK_CLOEXEC | SOCK_NONBLOCK));
        if (socket.number() < 0) {
            not_accepted(errno);
            return;
        }
        const std::string host = host_of(address);
        const std::string peer = host + ":" + std::to_string(ntohs(address.sin_port));
        try {
            take_in(std::move(socket), host, peer);
        } catch (const std::exception &fault) {
            events_.refused("connection", peer + ": " + fault.what());
        }
    }

    void take_in(Descriptor socket, const std::string &host, const std::string &peer) {
        const Strangers::Entry entry = strangers_.take(host);
        if (entry.slot == 0) {
            socket.close();
            events_.stranger({peer, "", tls_ != nullptr},
                             entry.is_address ? stranger_words::too_many_of_address
                                              : stranger_words::too_many,
                             "");
            return;
        }
        // The connection gives it back, and this where there is none.
        StrangerSlot slot(strangers_, entry.slot);
        make_room(entry.makes_room);
        set_option(socket, IPPROTO_TCP, TCP_NODELAY, 1);
        watch_peer(socket);
        connections_.push_back(std::make_unique<Connection>(
            std::move(socket), peer, tls_.get(), std::move(slot), sessions_, settings_, events_));
    }

    void make_room(Strangers::Slot slot) {
        for (const auto &connection : connections_) {
            if (slot != 0 && connection->slot() == slot) {
                connection->shut_stranger(stranger_words::made_room);
            }
        }
    }

    // One whose peer has gone meanwhile is no fault; another stays in the queue until there is a
    // descriptor, or memory.
    void not_accepted(int fault) {
        if (fault == EAGAIN || fault == EINTR || fault == ECONNABORTED) {
            return;
        }
        events_.refused("connection", std::strerror(fault));
        std::this_thread::sleep_for(milliseconds(500));
    }

    const EngineSettings settings_;
    EngineEvents &events_;
    Descriptor bell_;
    std::shared_ptr<const TlsServer> tls_; // of the accepting thread, once it runs
    std::mutex mutex_;
    std::shared_ptr<const TlsServer> renewed_;
    Strangers strangers_;
    Sessions sessions_;
    ListeningPort port_;
    std::list<std::unique_ptr<Connection>> connections_; // of the accepting thread, then of stop()
    std::atomic<bool> stopping_{false};
    std::thread thread_;
};

Engine::Engine(const EngineSettings &settings, const std::vector<SessionStart> &sessions,
               EngineEvents &events)
    : parts_(std::make_unique<Parts>(settings, sessions, events)) {}

Engine::~Engine() = default;

void Engine::add(const std::vector<SessionStart> &sessions) {
    parts_->add(sessions);
}

std::size_t Engine::sessions() const {
    return parts_->sessions().count();
}

void Engine::listen() {
    parts_->listen(ListeningPort());
}

void Engine::listen(ListeningPort port) {
    parts_->listen(std::move(port));
}

ListeningPort Engine::give_port() {
    return parts_->give_port();
}

void Engine::deliver(const Delivery &delivery, bool more_follow) {
    parts_->sessions().deliver(delivery, more_follow);
    parts_->events().delivered(delivery);
}

bool Engine::deliver_at_once(const Delivery &delivery) {
    if (!parts_->sessions().of(delivery.session).deliver_at_once(delivery)) {
        return false;
    }
    parts_->events().delivered(delivery);
    return true;
}

void Engine::send_held_back(const std::string &session) {
    parts_->sessions().of(session).send_held_back();
}

std::size_t Engine::waiting_bytes(const std::string &session) const {
    return parts_->sessions().of(session).waiting_bytes();
}

void Engine::disconnect(const std::string &session) {
    parts_->sessions().of(session).shut();
}

void Engine::log_out(const std::string &session, const std::string &reason) {
    parts_->sessions().of(session).log_out(reason);
}

void Engine::suspend(const std::string &session) {
    parts_->sessions().of(session).suspend();
}

void Engine::resume(const std::string &session) {
    parts_->sessions().of(session).resume();
}

void Engine::release(const std::string &session, std::uint32_t act) {
    parts_->sessions().of(session).release_firm(act);
}

void Engine::reset(const std::string &session, std::uint32_t act) {
    parts_->sessions().of(session).reset(act);
}

void Engine::renew(const EngineSettings &settings) {
    parts_->renew(settings);
}

void Engine::stop(const std::string &reason) {
    parts_->stop(reason);
}

} // namespace gateway
