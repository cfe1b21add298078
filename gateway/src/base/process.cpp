#include "base/process.h"

#include <algorithm>
#include <array>
#include <cerrno>
#include <csignal>
#include <cstdint>
#include <system_error>

#include <fcntl.h>
#include <fmt/format.h>
#include <poll.h>
#include <spawn.h>
#include <sys/syscall.h>
#include <sys/wait.h>
#include <unistd.h>

namespace gateway {

namespace {

struct Pipe {
    Descriptor read;
    Descriptor write;
};

Pipe make_pipe() {
    std::array<int, 2> ends{};
    if (::pipe2(ends.data(), O_CLOEXEC) != 0) {
        throw std::system_error(errno, std::generic_category(), "a pipe to the venue");
    }
    return {Descriptor(ends[0]), Descriptor(ends[1])};
}

// What posix_spawn is told, and its release.
class SpawnPlan {
  public:
    SpawnPlan() {
        posix_spawn_file_actions_init(&actions_);
        posix_spawnattr_init(&attributes_);
        sigset_t none;
        sigset_t reset;
        sigemptyset(&none);
        sigemptyset(&reset);
        sigaddset(&reset, SIGPIPE);
        posix_spawnattr_setsigmask(&attributes_, &none);
        posix_spawnattr_setsigdefault(&attributes_, &reset);
        posix_spawnattr_setpgroup(&attributes_, 0);
        posix_spawnattr_setflags(&attributes_, POSIX_SPAWN_SETSIGMASK | POSIX_SPAWN_SETSIGDEF |
                                                   POSIX_SPAWN_SETPGROUP);
    }
    ~SpawnPlan() {
        posix_spawnattr_destroy(&attributes_);
        posix_spawn_file_actions_destroy(&actions_);
    }
    SpawnPlan(const SpawnPlan &) = delete;
    SpawnPlan &operator=(const SpawnPlan &) = delete;

    void use(const Descriptor &descriptor, int as) {
        posix_spawn_file_actions_adddup2(&actions_, descriptor.number(), as);
    }
    // Libraries open some that a process would inherit, such as the sockets of Boost.Asio.
    void close_all_others() {
        posix_spawn_file_actions_addclosefrom_np(&actions_, STDERR_FILENO + 1);
    }
    const posix_spawn_file_actions_t *actions() const { return &actions_; }
    const posix_spawnattr_t *attributes() const { return &attributes_; }

  private:
    posix_spawn_file_actions_t actions_{};
    posix_spawnattr_t attributes_{};
};

// So long does poll() wait; -1 is without end.
int milliseconds_to(Process::Time latest) {
    if (latest == Process::Time::max()) {
        return -1;
    }
    const auto left =
        std::chrono::ceil<std::chrono::milliseconds>(latest - std::chrono::steady_clock::now());
    return static_cast<int>(std::max<std::int64_t>(left.count(), 0));
}

// Whether there is something to read, or room to write, before a moment; or the end.
bool has_some(const Descriptor &descriptor, short event, Process::Time latest) {
    pollfd some{descriptor.number(), event, 0};
    for (;;) {
        const int found = ::poll(&some, 1, milliseconds_to(latest));
        if (found >= 0 || errno != EINTR) {
            return found > 0;
        }
    }
}

std::string read_some(const Descriptor &descriptor, Process::Time latest) {
    std::array<char, 65536> buffer;
    if (latest != Process::Time::max() && !has_some(descriptor, POLLIN, latest)) {
        return {};
    }
    for (;;) {
        const ssize_t count = ::read(descriptor.number(), buffer.data(), buffer.size());
        if (count >= 0) {
            return std::string(buffer.data(), static_cast<std::size_t>(count));
        }
        if (errno != EINTR) {
            return {};
        }
    }
}

} // namespace

Process::Process(const std::vector<std::string> &command) {
    Pipe in = make_pipe();
    Pipe out = make_pipe();
    Pipe err = make_pipe();
    // Of this end alone: the process's own still blocks.
    if (::fcntl(in.write.number(), F_SETFL, O_NONBLOCK) != 0) {
        throw std::system_error(errno, std::generic_category(), "a pipe to the venue");
    }
    SpawnPlan plan;
    plan.use(in.read, STDIN_FILENO);
    plan.use(out.write, STDOUT_FILENO);
    plan.use(err.write, STDERR_FILENO);
    plan.close_all_others();
    std::vector<std::string> words = command;
    std::vector<char *> arguments;
    arguments.reserve(words.size() + 1);
    for (std::string &word : words) {
        arguments.push_back(word.data());
    }
    arguments.push_back(nullptr);
    const int fault = ::posix_spawnp(&pid_, arguments[0], plan.actions(), plan.attributes(),
                                     arguments.data(), environ);
    if (fault != 0) {
        throw std::system_error(fault, std::generic_category(), command[0]);
    }
    input_ = std::move(in.write);
    output_ = std::move(out.read);
    errors_ = std::move(err.read);
}

Process::~Process() {
    if (pid_ > 0) {
        kill();
        wait();
    }
}

bool Process::write(std::string_view bytes, Time latest) {
    while (!bytes.empty()) {
        const ssize_t count = ::write(input_.number(), bytes.data(), bytes.size());
        if (count > 0) {
            bytes.remove_prefix(static_cast<std::size_t>(count));
        } else if (count < 0 && errno == EAGAIN) {
            // Of a process that has ended poll() tells at once, and the next write why. What it has
            // started may keep its input open, and read nothing.
            if (!has_some(input_, POLLOUT, latest)) {
                return false;
            }
        } else if (count == 0 || errno != EINTR) {
            return false;
        }
    }
    return true;
}

std::size_t Process::write_at_once(std::string_view bytes) {
    const ssize_t count = ::write(input_.number(), bytes.data(), bytes.size());
    return count > 0 ? static_cast<std::size_t>(count) : 0;
}

void Process::close_input() {
    input_.close();
}

std::string Process::read_output(Time latest) {
    return read_some(output_, latest);
}

std::string Process::read_errors(Time latest) {
    return read_some(errors_, latest);
}

void Process::kill() {
    const std::lock_guard lock(mutex_);
    if (pid_ > 0) {
        ::kill(-pid_, SIGKILL);
    }
}

bool Process::end_within(std::chrono::milliseconds longest) {
    Descriptor process;
    {
        const std::lock_guard lock(mutex_);
        if (pid_ < 0) {
            return true;
        }
        // By its number: C++ can't link what <sys/pidfd.h> of Debian 12 declares.
        process = Descriptor(static_cast<int>(::syscall(SYS_pidfd_open, pid_, 0)));
    }
    // Without a descriptor poll() waits for the time alone.
    pollfd end{process.number(), POLLIN, 0};
    const bool ended = ::poll(&end, 1, static_cast<int>(longest.count())) > 0;
    if (!ended) {
        kill();
    }
    return ended;
}

void Process::end_all_within(std::chrono::milliseconds longest) {
    end_within(longest);
    kill();
}

std::string Process::wait() {
    // Until it is taken from it below its number is its own, and kill() may be called.
    siginfo_t end{};
    while (::waitid(P_PID, static_cast<id_t>(pid_), &end, WEXITED | WNOWAIT) < 0 &&
           errno == EINTR) {
    }
    int status = 0;
    const std::lock_guard lock(mutex_);
    while (::waitpid(pid_, &status, 0) < 0 && errno == EINTR) {
    }
    pid_ = -1;
    if (WIFSIGNALED(status)) {
        return fmt::format("was ended by signal {}", WTERMSIG(status));
    }
    return fmt::format("ended with status {}", WEXITSTATUS(status));
}

} // namespace gateway
