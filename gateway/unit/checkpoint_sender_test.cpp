// Checkpoints that leave this host as they are made.
#define DOCTEST_CONFIG_IMPLEMENT_WITH_MAIN
#include <doctest/doctest.h>

#include "check.h"
#include "log/checkpoint_sender.h"

#include <chrono>
#include <csignal>
#include <fstream>
#include <iterator>
#include <string>
#include <thread>

namespace gateway::tests {

namespace {

using namespace std::chrono_literals;

const auto silent = std::make_shared<spdlog::logger>("none");

// As the gateway does: a program may be gone when it is written to.
struct NoPipeSignal {
    NoPipeSignal() { std::signal(SIGPIPE, SIG_IGN); }
};

std::string text_in(const std::filesystem::path &file) {
    std::ifstream in(file);
    return {std::istreambuf_iterator<char>(in), {}};
}

} // namespace

TEST_CASE_FIXTURE(NoPipeSignal, "a line a checkpoint, all of them by the end") {
    const Scratch folder("sender");
    const auto file = folder.path() / "sent";
    {
        CheckpointSender sender({"tee", file.string()}, silent);
        sender.send("mireseason log 6\ncheckpoint 1\nsignature ab\n");
        sender.send("mireseason log 6\ncheckpoint 2\nsignature cd\n");
    }
    same<std::string>("mireseason log 6\tcheckpoint 1\tsignature ab\n"
                      "mireseason log 6\tcheckpoint 2\tsignature cd\n",
                      text_in(file), "what was sent");
}

// A host that is lost in the next second has sent it.
TEST_CASE_FIXTURE(NoPipeSignal, "a checkpoint leaves when it is made") {
    const Scratch folder("sender");
    const auto file = folder.path() / "sent";
    CheckpointSender sender({"tee", file.string()}, silent);
    std::string wanted;
    for (const std::string line : {"checkpoint 1\n", "checkpoint 2\n"}) {
        sender.send(line);
        wanted += line;
        const auto latest = std::chrono::steady_clock::now() + 60s;
        while (text_in(file) != wanted && std::chrono::steady_clock::now() < latest) {
            std::this_thread::sleep_for(1ms);
        }
        same(wanted, text_in(file), "what was sent");
    }
}

TEST_CASE_FIXTURE(NoPipeSignal, "nobody waits for a program that reads nothing") {
    const auto begun = std::chrono::steady_clock::now();
    {
        CheckpointSender sender({"sleep", "600"}, silent);
        const std::string line(2000, 'x');
        for (int number = 0; number < 1000; ++number) {
            sender.send(line);
        }
    }
    CHECK(std::chrono::steady_clock::now() - begun < 30s);
}

TEST_CASE_FIXTURE(NoPipeSignal, "nobody waits for what a program has left its input to") {
    const auto begun = std::chrono::steady_clock::now();
    {
        // It is in a session of its own, which is not ended with the program.
        CheckpointSender sender({"sh", "-c", "exec 3<&0; setsid sleep 90 & wait"}, silent);
        sender.send(std::string(1000000, 'x'));
    }
    CHECK(std::chrono::steady_clock::now() - begun < 60s);
}

TEST_CASE_FIXTURE(NoPipeSignal, "a program that is not there or ends at once harms nobody") {
    for (const char *program : {"/nonexistent/program", "false"}) {
        CheckpointSender sender({program}, silent);
        for (int number = 0; number < 100; ++number) {
            sender.send("a line\n");
        }
    }
}

} // namespace gateway::tests
