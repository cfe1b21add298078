// A child process: how it ends, what it inherits, and who waits for it how long.
#define DOCTEST_CONFIG_IMPLEMENT_WITH_MAIN
#include <doctest/doctest.h>

#include "base/process.h"
#include "comes_true.h"
#include "common/descriptor.h"

#include <chrono>
#include <csignal>
#include <sstream>
#include <string>
#include <system_error>
#include <vector>

#include <fcntl.h>
#include <fmt/format.h>
#include <unistd.h>

namespace gateway::tests {

using namespace std::chrono_literals;
using Clock = std::chrono::steady_clock;

std::vector<std::string> shell(const std::string &script) {
    return {"sh", "-c", script};
}

std::string output_of(Process &process) {
    std::string text;
    for (std::string bytes = process.read_output(); !bytes.empty(); bytes = process.read_output()) {
        text += bytes;
    }
    return text;
}

TEST_CASE("how a process ends") {
    CHECK(Process({"true"}).wait() == "ended with status 0");
    CHECK(Process(shell("exit 7")).wait() == "ended with status 7");
    CHECK(Process(shell("kill -9 $$")).wait() == "was ended by signal 9");
    CHECK(Process(shell("kill -15 $$")).wait() == "was ended by signal 15");
    std::string fault;
    try {
        Process none({"no-such-program", "x"});
    } catch (const std::system_error &told) {
        fault = told.what();
    }
    CHECK(fault == "no-such-program: No such file or directory");
}

TEST_CASE("what goes in and comes out") {
    Process process(shell("cat; echo \"$0\" \"$1\"; echo wrong >&2"));
    CHECK(process.write("in\n"));
    CHECK(process.write_at_once("more\n") == 5);
    process.close_input();
    CHECK(output_of(process) == "in\nmore\nsh \n");
    CHECK(process.read_errors() == "wrong\n");
    CHECK(process.read_errors() == "");
    Process words({"echo", "a b", "", "c"});
    CHECK(output_of(words) == "a b  c\n");
}

// What a pipe has room for is taken, and the rest waits until the moment that is given.
TEST_CASE("a process that reads nothing") {
    std::signal(SIGPIPE, SIG_IGN);
    Process process(shell("exec sleep 200"));
    const std::string much(1 << 20, 'x');
    const auto began = Clock::now();
    CHECK_FALSE(process.write(much, began + 100ms));
    CHECK(Clock::now() - began >= 100ms);
    CHECK(Clock::now() - began < 60s);
    CHECK(process.write_at_once(much) == 0);
    CHECK_FALSE(process.write("x", Clock::now() - 1s));
    process.kill();
    process.wait();
    Process ended({"true"});
    ended.wait();
    CHECK_FALSE(ended.write(much));
}

TEST_CASE("a process that says nothing") {
    Process process(shell("exec sleep 200"));
    const auto began = Clock::now();
    CHECK(process.read_output(began + 50ms) == "");
    CHECK(process.read_errors(began + 100ms) == "");
    CHECK(Clock::now() - began >= 100ms);
    CHECK(Clock::now() - began < 60s);
    Process late(shell("echo now; exec sleep 200"));
    CHECK(late.read_output(Clock::now() + 60s) == "now\n");
}

TEST_CASE("a process is waited for so long") {
    Process quick({"true"});
    CHECK(quick.end_within(60s));
    CHECK(quick.wait() == "ended with status 0");
    CHECK(quick.end_within(0ms)); // it has ended long ago
    Process slow(shell("exec sleep 200"));
    const auto began = Clock::now();
    CHECK_FALSE(slow.end_within(50ms));
    CHECK(Clock::now() - began >= 50ms);
    CHECK(slow.wait() == "was ended by signal 9");
}

// Else its output would not end.
TEST_CASE("what a process has left ends with it") {
    Process left(shell("sleep 200 & echo $!"));
    const std::string number = left.read_output();
    const pid_t process = std::stoi(number);
    CHECK(::kill(process, 0) == 0);
    left.end_all_within(60s);
    CHECK(left.wait() == "ended with status 0");
    CHECK(output_of(left) == "");
    pid_t destroyed = 0;
    {
        Process gone(shell("sleep 200 & echo $!; exec sleep 200"));
        destroyed = std::stoi(gone.read_output());
    }
    // A process that nobody has waited for yet is there all the same.
    const auto has_ended = [](pid_t each) {
        Process looks({"sh", "-c", fmt::format("cut -d' ' -f3 /proc/{}/stat 2>&1", each)});
        const std::string state = output_of(looks);
        return state == "Z\n" || state == "X\n" || state.find("No such") != std::string::npos;
    };
    CHECK(comes_true([&] { return has_ended(process); }));
    CHECK(comes_true([&] { return has_ended(destroyed); }));
}

// A group of its own, which a Ctrl-C at the gateway's terminal does not reach; no signal that is
// blocked; SIGPIPE as ever; and none of the gateway's files.
TEST_CASE("what a process inherits") {
    std::signal(SIGPIPE, SIG_IGN);
    sigset_t blocked;
    sigset_t before;
    sigemptyset(&blocked);
    sigaddset(&blocked, SIGTERM);
    sigaddset(&blocked, SIGHUP);
    REQUIRE(::pthread_sigmask(SIG_BLOCK, &blocked, &before) == 0);
    const Descriptor open(::fcntl(STDOUT_FILENO, F_DUPFD, 77));
    REQUIRE(open.number() >= 77);
    Process looks({"cat", "/proc/self/stat", "/proc/self/status"});
    Process files(shell(fmt::format("[ -e /proc/$$/fd/{} ] || echo closed", open.number())));
    ::pthread_sigmask(SIG_SETMASK, &before, nullptr);
    const std::string said = output_of(looks);
    std::istringstream stat(said);
    std::string number;
    std::string other;
    std::string group;
    stat >> number >> other >> other >> other >> group;
    CHECK(group == number);
    const auto signals = [&said](const std::string &name) {
        const std::size_t at = said.find("\n" + name + ":\t");
        REQUIRE(at != std::string::npos);
        return std::stoull(said.substr(at + name.size() + 3), nullptr, 16);
    };
    CHECK(signals("SigBlk") == 0);
    CHECK((signals("SigIgn") & (1ULL << (SIGPIPE - 1))) == 0);
    CHECK(output_of(files) == "closed\n");
}

} // namespace gateway::tests
