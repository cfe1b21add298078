// Events on a standard error that takes none: a gateway waits once, and then leaves them out.
#define DOCTEST_CONFIG_IMPLEMENT_WITH_MAIN
#include <doctest/doctest.h>

#include "base/patient_stderr.h"
#include "common/descriptor.h"

#include <array>
#include <chrono>
#include <csignal>
#include <memory>
#include <string>

#include <fcntl.h>
#include <fmt/format.h>
#include <spdlog/logger.h>
#include <unistd.h>

namespace gateway::tests {

using namespace std::chrono_literals;

// A pipe of some pages in the place of standard error, as long as it lives.
class Piped {
  public:
    Piped() {
        std::signal(SIGPIPE, SIG_IGN);
        std::array<int, 2> ends{};
        REQUIRE(::pipe2(ends.data(), O_CLOEXEC) == 0);
        read_ = Descriptor(ends[0]);
        REQUIRE(::fcntl(ends[1], F_SETPIPE_SZ, room) == room);
        REQUIRE(::fcntl(ends[0], F_SETFL, O_NONBLOCK) == 0);
        REQUIRE(::dup2(ends[1], STDERR_FILENO) == STDERR_FILENO);
        ::close(ends[1]);
        auto sink = std::make_shared<PatientStderr>();
        sink->set_pattern("%v");
        events_ = std::make_shared<spdlog::logger>("events", sink);
    }
    ~Piped() { ::dup2(before_.number(), STDERR_FILENO); }
    Piped(const Piped &) = delete;
    Piped &operator=(const Piped &) = delete;

    // How long it takes.
    std::chrono::steady_clock::duration tell(const std::string &words) {
        const auto began = std::chrono::steady_clock::now();
        events_->info("{}", words);
        return std::chrono::steady_clock::now() - began;
    }
    // What has come.
    std::string take() const {
        std::string text(2 * room, '\0');
        const ssize_t count = ::read(read_.number(), text.data(), text.size());
        text.resize(count > 0 ? static_cast<std::size_t>(count) : 0);
        return text;
    }
    void fill() const {
        const std::string bytes(room, '-');
        REQUIRE(::write(STDERR_FILENO, bytes.data(), bytes.size()) == room);
    }
    // What is read once an event is told.
    std::string told(const std::string &event) {
        tell(event);
        return take();
    }

    void close() { read_.close(); }

    static constexpr int room = 65536; // sixteen pages

  private:
    const Descriptor before_{::fcntl(STDERR_FILENO, F_DUPFD_CLOEXEC, 0)};
    Descriptor read_;
    std::shared_ptr<spdlog::logger> events_;
};

TEST_CASE("events are told, and how many were left out") {
    Piped piped;
    piped.tell("one");
    piped.tell("two");
    CHECK(piped.take() == "one\ntwo\n");
    piped.fill();
    const auto waited = piped.tell("three");
    CHECK(waited >= 900ms);
    CHECK(waited < 30s);
    // From then on nobody waits.
    const auto began = std::chrono::steady_clock::now();
    for (int count = 0; count < 20; ++count) {
        piped.tell("four");
    }
    CHECK(std::chrono::steady_clock::now() - began < 15s);
    CHECK(piped.take() == std::string(Piped::room, '-'));
    CHECK(piped.told("five") == "21 events were left out: standard error took none\nfive\n");
    CHECK(piped.told("six") == "six\n");
}

// Its line ends before the next one begins.
TEST_CASE("an event that is cut") {
    Piped piped;
    const std::string all(Piped::room, 'x');
    CHECK(piped.told(all + "yyy") == all);
    CHECK(piped.told("next") == "\n1 events were left out: standard error took none\nnext\n");
    CHECK(piped.told("last") == "last\n");
}

TEST_CASE("nobody reads it") {
    Piped piped;
    piped.close();
    CHECK(piped.tell("one") < 900ms);
    CHECK(piped.tell("two") < 900ms);
}

} // namespace gateway::tests
