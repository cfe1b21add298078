// TLS 1.3 answers an update of keys before it reads on. If a peer asks for such answers and reads
// none of them, the connection's thread waits, and does not work. And such a record says nothing,
// but it was read.
#define DOCTEST_CONFIG_IMPLEMENT_WITH_MAIN
#include <doctest/doctest.h>

#include "one_connection.h"

#include <csignal>
#include <fstream>

#include <sys/ioctl.h>

namespace gateway::tests {

namespace {

using namespace std::chrono_literals;

// More answers than the socket has room for, and fewer than there may be requests for them.
constexpr int updates = 100;
// How long the thread is watched, and how often it may call the system to write meanwhile: for each
// update twice, and each time that it looks at its clock.
constexpr auto watched = 1s;
constexpr long most_writes = 2 * updates + 200;

// How often this process has called the system to write, with or without success.
long writes() {
    std::ifstream counts("/proc/self/io");
    std::string name;
    long count = 0;
    while (counts >> name >> count) {
        if (name == "syscw:") {
            return count;
        }
    }
    return -1;
}

// Of what has come to a socket.
int unread(int socket) {
    int count = 0;
    check(::ioctl(socket, FIONREAD, &count) == 0, "not known what is unread");
    return count;
}

// The server of a connection, which may be silent for long.
struct Server {
    Server() {
        std::signal(SIGPIPE, SIG_IGN);
        settings.logon_seconds = 600;
        make_certificate(settings, folder.path());
    }

    Scratch folder{"key_updates"};
    EngineSettings settings;
};

TEST_CASE("answers that nobody reads") {
    Server given;
    const TlsServer server(given.settings);
    OneConnection one(given.settings, &server);
    const int number = one.connection_socket();
    const int little = 1;
    check(::setsockopt(number, SOL_SOCKET, SO_SNDBUF, &little, sizeof little) == 0, "no options");
    Peer peer(one.other());
    const long before = writes();
    for (int update = 0; update < updates; ++update) {
        check(peer.update_keys(SSL_KEY_UPDATE_REQUESTED), "no update of keys");
    }
    std::this_thread::sleep_for(watched);
    const long tried = writes() - before;
    check(unread(number) > 0, "all of it has room");
    check(before >= 0 && tried < most_writes, fmt::format("it has written {} times", tried));
    // Once there is room it goes on.
    const auto latest = std::chrono::steady_clock::now() + longest_wait;
    while (unread(number) > 0 && std::chrono::steady_clock::now() < latest) {
        std::array<char, 65536> answers;
        if (::recv(one.other().number(), answers.data(), answers.size(), MSG_DONTWAIT) < 0) {
            std::this_thread::sleep_for(1ms);
        }
    }
    check(unread(number) == 0, "it does not go on");
    check(!one.connection.has_ended(), "it has ended");
}

// Not until its time is over: whoever sends nothing else would have a thread at work for so long.
TEST_CASE("a stranger's updates without end") {
    Server given;
    const TlsServer server(given.settings);
    OneConnection one(given.settings, &server);
    Peer peer(one.other());
    for (int update = 0; update < 1000 && peer.update_keys(SSL_KEY_UPDATE_NOT_REQUESTED);
         ++update) {
    }
    check(one.ends_soon(), "it stays");
}

// A firm that has logged on over TLS.
struct LoggedOn {
    LoggedOn() {
        check(peer.say(logon_now()), "no Logon");
        peer.read_until("|35=1|");
    }

    Server given;
    const TlsServer server{given.settings};
    OneConnection one{given.settings, &server};
    Peer peer{one.other()};
};

// Its messages, of which each is one read.
TEST_CASE("updates count in the rate of a firm") {
    LoggedOn firm;
    const std::size_t before = firm.one.host.messages;
    for (int update = 0; update < 1000; ++update) {
        check(firm.peer.update_keys(SSL_KEY_UPDATE_NOT_REQUESTED), "a firm's connection has ended");
    }
    firm.one.wait_read(before + 1000);
}

// However few bytes a record brings, its read is work.
TEST_CASE("records of single bytes count in the rate of a firm") {
    LoggedOn firm;
    const auto say = [&firm](const std::string &bytes) {
        check(firm.peer.say(bytes), "a firm's connection has ended");
    };
    firm.one.wait_read(1); // the Logon
    // A message that comes in eight is one.
    constexpr int whole = 100;
    for (int number = 2; number < 2 + whole; ++number) {
        const std::string message = said_now("0", number, "");
        for (std::size_t at = 0; at < 7; ++at) {
            say(message.substr(at, 1));
        }
        say(message.substr(7));
    }
    firm.one.wait_read(1 + whole);
    // Of one that does not end each eight are one.
    const std::string endless = with_soh("8=FIXT.1.1|9=3000|35=0|58=") + std::string(1600, 'x');
    for (std::size_t at = 0; at < 1600; ++at) {
        say(endless.substr(at, 1));
    }
    firm.one.wait_read(1 + whole + 200);
}

// Between two messages each time: the firm is not below its rate for that.
TEST_CASE("updates end no flood") {
    LoggedOn firm;
    firm.one.host.pause = 100ms;
    bool goes_on = firm.peer.say(said_now("0", 2, "112=2|"));
    const auto latest = std::chrono::steady_clock::now() + longest_wait;
    for (int number = 3; goes_on && std::chrono::steady_clock::now() < latest; ++number) {
        goes_on = firm.peer.say(said_now("0", number, "")) &&
                  firm.peer.update_keys(SSL_KEY_UPDATE_NOT_REQUESTED);
    }
    check(!goes_on && firm.one.ends_soon(), "it is not logged out");
    const std::string why = firm.one.host.why();
    check(why.find("the rate of a firm") != std::string::npos, why);
}

} // namespace

} // namespace gateway::tests
