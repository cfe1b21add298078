// The programs mireseason-gateway and mireseason-admin as an operator calls them: their words, what
// they print, and with which status they end.
#define DOCTEST_CONFIG_IMPLEMENT_WITH_MAIN
#include <doctest/doctest.h>

#include "base/digest.h"
#include "base/private_file.h"
#include "base/process.h"
#include "comes_true.h"
#include "common/descriptor.h"
#include "common/password.h"
#include "common/version.h"
#include "log/checkpoint_file.h"
#include "operator/admin_peer.h"
#include "operator/admin_words.h"
#include "site.h"

#include <algorithm>
#include <chrono>
#include <csignal>
#include <cstdlib>
#include <filesystem>
#include <fstream>
#include <stop_token>
#include <string>
#include <thread>
#include <utility>
#include <vector>

#include <fcntl.h>
#include <fmt/format.h>
#include <poll.h>
#include <sys/socket.h>
#include <sys/stat.h>
#include <sys/un.h>
#include <unistd.h>

namespace gateway::tests {

using namespace std::chrono_literals;
using Words = std::vector<std::string>;

// What a program did.
struct Done {
    int status = -1;
    std::string out;
    std::string err;
};

std::string all_of(std::string (Process::*read)(Process::Time), Process &process) {
    std::string text;
    for (std::string bytes = (process.*read)(Process::Time::max()); !bytes.empty();
         bytes = (process.*read)(Process::Time::max())) {
        text += bytes;
    }
    return text;
}

// Up to where it ends, for a minute at most.
Done run(const Words &words, const std::string &input = "") {
    std::signal(SIGPIPE, SIG_IGN); // it may read nothing
    Process process(words);
    const std::jthread limit([&process] { process.end_all_within(60s); });
    process.write(input);
    process.close_input();
    Done done;
    done.out = all_of(&Process::read_output, process);
    done.err = all_of(&Process::read_errors, process);
    const std::string end = process.wait(), ended = "ended with status ";
    check(end.starts_with(ended), end);
    done.status = std::stoi(end.substr(ended.size()));
    return done;
}

// In front of the words of the program there may be some for env(1).
Done run_of(const char *program, const Words &words, const std::string &input = "",
            const Words &env = {}) {
    Words all = {"env"};
    all.insert(all.end(), env.begin(), env.end());
    all.emplace_back(program);
    all.insert(all.end(), words.begin(), words.end());
    return run(all, input);
}
Done gateway_of(const Words &words, const std::string &input = "") {
    return run_of(GATEWAY_PROGRAM, words, input);
}

void is(const Done &done, int status, const std::string &out, const std::string &err) {
    CHECK(done.status == status);
    CHECK(done.out == out);
    CHECK(done.err == err);
}

// ---------------------------------------------------------------- mireseason-gateway

TEST_CASE("words that are none of the gateway's") {
    for (const Words &words : std::vector<Words>{{},
                                                 {"--help"},
                                                 {"-x"},
                                                 {"a", "b"},
                                                 {"--version", "x"},
                                                 {"--hash", "x"},
                                                 {"--confined"},
                                                 {"--make-keys"},
                                                 {"--accept-loss"},
                                                 {"--accept-loss", "a", "b"},
                                                 {"--check"},
                                                 {"--check", "a", "20261130"},
                                                 {"--check", "a", "--day", "20261130"},
                                                 {"--check", "a", "--date"},
                                                 {"--check", "a", "--date", "20261130", "b"}}) {
        const Done done = gateway_of(words);
        CHECK(done.status == 2);
        CHECK(done.out == "");
        CHECK_MESSAGE(done.err.starts_with("usage: mireseason-gateway CONFIG\n"), done.err);
    }
}

TEST_CASE("the gateway's version") {
    const Done done = gateway_of({"--version"});
    is(done, 0, version_text() + "\n", "");
    CHECK(done.out.starts_with("mireseason-gateway "));
}

TEST_CASE("a password's hash") {
    const Done done = gateway_of({"--hash"}, "a word \nother\n");
    CHECK(done.status == 0);
    REQUIRE(done.out.ends_with("\n"));
    CHECK(has_hash("a word ", done.out.substr(0, done.out.size() - 1)));
    CHECK(gateway_of({"--hash"}, "a word").status == 0);
    for (const char *none : {"", "\n", "\na word\n"}) {
        is(gateway_of({"--hash"}, none), 2, "",
           "mireseason-gateway: no password on standard input\n");
    }
}

TEST_CASE("a gateway's keys") {
    const Scratch folder("keys");
    const auto path = [&](const std::string &name) { return (folder.path() / name).string(); };
    is(gateway_of({"--make-keys", path("new/one")}), 0,
       fmt::format("{0}/seal.key\n{0}/gateway.pem\n{0}/gateway.pub\n", path("new/one")), "");
    is(gateway_of({"--make-keys", path("two"), "north-1", "South_2"}), 0,
       fmt::format("{0}/seal.key\n{0}/north-1.pem\n{0}/north-1.pub\n{0}/South_2.pem\n"
                   "{0}/South_2.pub\n",
                   path("two")),
       "");
    const auto mode = [&](const std::string &name) {
        return static_cast<unsigned>(fs::status(folder.path() / name).permissions());
    };
    CHECK(mode("two/seal.key") == 0600);
    CHECK(mode("two/north-1.pem") == 0600);
    CHECK(mode("two/north-1.pub") == 0644);
    const auto keys = [&](const std::string &own, const std::string &known) {
        return read_seal_keys({folder.path() / "two/seal.key",
                               folder.path() / "two" / own,
                               {folder.path() / "two" / known}});
    };
    CHECK(keys("north-1.pem", "north-1.pub")->is_own_listed);
    CHECK_FALSE(keys("north-1.pem", "South_2.pub")->is_own_listed);
    const Done again = gateway_of({"--make-keys", path("two"), "west"});
    CHECK(again.status == 1);
    CHECK_MESSAGE(again.err.find(path("two/seal.key")) != std::string::npos, again.err);
    CHECK_FALSE(fs::exists(folder.path() / "two/west.pem"));
}

TEST_CASE("names of gateways that are none") {
    const Scratch folder("keys");
    const std::string keys = (folder.path() / "keys").string();
    for (const char *name : {"", "seal", "a/b", "a.b", "a b", "\xc3\xa9", ".."}) {
        is(gateway_of({"--make-keys", keys, "good", name}), 1, "",
           fmt::format("mireseason-gateway: `{}` is no name of a gateway: it has letters, digits, "
                       "- and _, and is not `seal`\n",
                       name));
        CHECK_FALSE(fs::exists(keys));
    }
}

// ---------------------------------------------------------------- --check

const std::string part_of_check = " is a configuration of 2 firms for ";

TEST_CASE("what a start would find today") {
    const Site site;
    const std::string file = site.file().string(), day = today();
    const std::string known = file + part_of_check + day + "\n";
    const Done begins = gateway_of({"--check", file});
    CHECK(begins.status == 0);
    CHECK_MESSAGE(begins.out.starts_with("a restart now begins " + day + " to "), begins.out);
    CHECK_MESSAGE(begins.out.ends_with("Z\n" + known), begins.out);
    CHECK(begins.err == "");
    // A firm that can't log on is told once.
    site.put("credentials.toml", "[DLR1]\nusername = \"d\"\npassword = \"$6$salt$hash\"\n");
    const Done lacks = gateway_of({"--check", file});
    const std::string out = "\nINV1 can't log on: it has no credentials\n" + known;
    CHECK(lacks.status == 0);
    CHECK_MESSAGE(lacks.out.ends_with("Z" + out), lacks.out);
}

TEST_CASE("what a start would find on a day") {
    const Site site;
    const std::string file = site.file().string();
    const std::string known = file + part_of_check + "20991231\n";
    const Words check_of_day = {"--check", file, "--date", "20991231"};
    is(gateway_of(check_of_day), 0, known, "");
    site.put("credentials.toml", "[DLR1]\nusername = \"d\"\npassword = \"$6$salt$hash\"\n");
    is(gateway_of(check_of_day), 0, known + "INV1 can't log on: it has no credentials\n", "");
    make_keys(site / "others", {"other"});
    site.change("keys/gateway.pub", "others/other.pub");
    const Done doubt = gateway_of(check_of_day);
    CHECK(doubt.status == 0);
    CHECK_MESSAGE(doubt.err.starts_with("mireseason-gateway: in doubt: [seal] gateways: none "),
                  doubt.err);
    site.put("venue.sh", "echo no >&2; exit 1\n");
    is(gateway_of(check_of_day), 1, "",
       "mireseason-gateway: the venue's program sh does not take the configuration: ended with "
       "status 1: no\n");
    fs::remove(file);
    is(gateway_of(check_of_day), 1, "", "mireseason-gateway: " + file + ": can't be read\n");
    for (const char *day : {"", "2026113", "202611300", "2026-11-30", "20261301", "20260030",
                            "20261100", "20261132", "x"}) {
        is(gateway_of({"--check", file, "--date", day}), 2, "",
           "mireseason-gateway: --date takes a day as eight digits\n");
    }
}

TEST_CASE("what a restart of a day that has begun would find") {
    const Site site;
    const std::string file = site.file().string(), day = today();
    site.begin();
    const Done same = gateway_of({"--check", file});
    CHECK(same.status == 0);
    CHECK_MESSAGE(same.out.starts_with("a restart now goes on with " + day), same.out);
    CHECK_MESSAGE(same.out.ends_with("\n" + file + part_of_check + day + "\n"), same.out);
    site.put("venue.toml", other_venue());
    const Done other = gateway_of({"--check", file});
    CHECK(other.status == 0);
    CHECK_MESSAGE(
        other.out.ends_with(fmt::format("\n{}{}the day after {}\n", file, part_of_check, day)),
        other.out);
    // The restart goes well, and the next day does not open with that.
    site.put("venue.toml", "other = 1\n");
    const Done fault = gateway_of({"--check", file});
    CHECK(fault.status == 1);
    CHECK_MESSAGE(fault.out.starts_with("a restart now goes on with " + day), fault.out);
    CHECK_MESSAGE(fault.err.ends_with("mireseason-gateway: so the status is 1, although a restart "
                                      "now goes well: mend it before the next day\n"),
                  fault.err);
    site.put("venue.toml", least_venue());
    fs::remove(site / fmt::format("checkpoints/day-{}.checkpoint", day));
    const Done lost = gateway_of({"--check", file});
    CHECK(lost.status == 1);
    CHECK_MESSAGE(lost.out.find(" ends with status 3: ") != std::string::npos, lost.out);
    CHECK(lost.err == "");
}

TEST_CASE("a gateway that runs has its ports") {
    const Site site;
    fs::remove(site.file());
    REQUIRE(::mkfifo(site.file().c_str(), 0600) == 0);
    // It is one once it has its name.
    const Process running({"bash", "-c", "exec -a mireseason-gateway cat \"$0\"", site.file()});
    const auto latest = std::chrono::steady_clock::now() + 60s;
    Done done;
    while (done.out.empty() && std::chrono::steady_clock::now() < latest) {
        done = gateway_of({"--check", site.file(), "--date", "20991231"});
    }
    CHECK_MESSAGE(done.out.starts_with("a gateway runs with it, process "), done.out);
    CHECK_MESSAGE(done.out.ends_with(", and has its ports\n"), done.out);
    CHECK(done.status == 1); // a pipe is no file
}

// ---------------------------------------------------------------- --confined

// Of the folders in PATH the first one has no such program, and it reads what is beside its own.
TEST_CASE("a confined program is looked up in PATH") {
    const Scratch folder("confined");
    fs::create_directory(folder.path() / "empty");
    fs::create_directories(folder.path() / "own/bin");
    const fs::path program = folder.path() / "own/bin/says";
    std::ofstream(folder.path() / "own/words") << "yes";
    std::ofstream(program) << "#!/bin/sh\nread -r word <\"${0%/*}/../words\"\necho \"$word\"\n";
    fs::permissions(program, fs::perms::owner_all);
    const std::string path =
        fmt::format("PATH={0}/empty:{0}/own/bin:/usr/bin:/bin", folder.path().string());
    const Done done = run_of(GATEWAY_PROGRAM, {"--confined", "says"}, "", {path});
    CHECK(done.status == 0);
    CHECK(done.out == "yes\n");
}

// ---------------------------------------------------------------- --accept-loss

TEST_CASE("a loss is accepted, and told as the events' level says") {
    for (const auto &[level, is_told] :
         {std::pair("info", true), std::pair("warning", true), std::pair("error", false)}) {
        const Site site;
        site.add(fmt::format("[events]\nlevel = \"{}\"\n", level));
        const Config config = site.config();
        const Sealer sealer = sealer_of(config);
        Checkpoint kept;
        kept.number = 1;
        kept.at.place = 7;
        kept.at.hash = sha256("x");
        CheckpointFile(config.checkpoints, sealer).write(sealer.sign(kept));
        const Done done = gateway_of({"--accept-loss", site.file().string()});
        const std::string said = fmt::format(
            "{}: the log goes on after nothing; the checkpoint that was kept had entry 7",
            checkpoint_path(config.checkpoints, "", config.firms.date).string());
        CHECK(done.status == 0);
        CHECK(done.out == said + "\n");
        CHECK_MESSAGE((done.err.find("loss accepted " + said) != std::string::npos) == is_told,
                      done.err);
        CHECK_MESSAGE((done.err.find("log begun ") != std::string::npos) ==
                          (std::string("info") == level),
                      done.err);
        const std::string act = fmt::format(" {} log accept-loss", who_is(::getuid()));
        const auto entries = read_log(config)->entries(0, 9);
        REQUIRE(entries.size() == 2);
        CHECK(entries[1].line.starts_with("# act "));
        CHECK(entries[1].line.ends_with(act));
        struct stat found {};
        REQUIRE(::stat(config.sqlite.c_str(), &found) == 0);
        CHECK((found.st_mode & 027U) == 0); // others read nothing of it
    }
    const std::string none = "/none/gateway.toml";
    is(gateway_of({"--accept-loss", none}), 1, "",
       fmt::format("mireseason-gateway: {}: can't be read\n", none));
}

// ---------------------------------------------------------------- a start

TEST_CASE("a start that finds a fault") {
    const Site site;
    const std::string file = site.file().string();
    site.change("credentials.toml", "none.toml");
    is(gateway_of({file}), 1, "",
       fmt::format("mireseason-gateway: {}: can't be read\n", (site / "none.toml").string()));
    site.add("listen = \"localhost\"\nplain_tcp_beyond_loopback = true\n");
    is(gateway_of({file}), 1, "",
       fmt::format("mireseason-gateway: localhost:{}: no address of IPv4\n", site.port));
    CHECK_FALSE(fs::exists(site / fmt::format("day-{}.db", today())));
}

// A gateway that serves, of which signals ask something.
class Serving {
  public:
    explicit Serving(const Site &site)
        : process_({"sh", "-c", "echo $$; exec \"$0\" \"$1\"", GATEWAY_PROGRAM, site.file()}),
          number_(std::stoi(process_.read_output())) {}

    // Whether it tells this within a minute.
    bool tells(const std::string &words) {
        const auto latest = std::chrono::steady_clock::now() + 60s;
        while (told_.find(words) == std::string::npos &&
               std::chrono::steady_clock::now() < latest) {
            told_ += process_.read_errors(latest);
        }
        CHECK_MESSAGE(told_.find(words) != std::string::npos, told_);
        return told_.find(words) != std::string::npos;
    }
    void is_sent(int signal) const { ::kill(number_, signal); }
    std::string end() {
        process_.end_all_within(60s);
        told_ += all_of(&Process::read_errors, process_);
        return process_.wait();
    }
    // Once it has ended.
    bool has_told(const std::string &words) const { return told_.find(words) != std::string::npos; }

  private:
    Process process_;
    pid_t number_;
    std::string told_;
};

TEST_CASE("a gateway is asked by signals") {
    for (const int stop : {SIGTERM, SIGINT}) {
        const Site site;
        Serving gateway(site);
        REQUIRE(gateway.tells(
            fmt::format(" ready address=127.0.0.1:{} tls=false firms=2\n", site.port)));
        gateway.is_sent(SIGHUP);
        CHECK(gateway.tells(" credentials and certificates were read again\n"));
        gateway.is_sent(SIGPIPE); // nobody asks anything by that
        gateway.is_sent(stop);
        CHECK(gateway.tells(" stop cause=\"the operator has stopped the gateway\"\n"));
        CHECK(gateway.end() == "ended with status 0");
        CHECK_FALSE(gateway.has_told("while a day is copied"));
        struct stat found {};
        REQUIRE(::stat((site / fmt::format("day-{}.db", today())).c_str(), &found) == 0);
        CHECK((found.st_mode & 027U) == 0); // others read nothing of it
    }
}

// A pipe in the place of a file that is copied is a disk that does not answer.
TEST_CASE("a gateway ends while the disk of its copies does not answer") {
    const Site site;
    site.begin([](Config &) {}, "20200101");
    const fs::path checkpoint = site / "checkpoints/day-20200101.checkpoint";
    fs::remove(checkpoint);
    REQUIRE(::mkfifo(checkpoint.c_str(), 0600) == 0);
    fs::create_directory(site / "copies");
    site.add("[copies]\nfolder = \"copies\"\n");
    Serving gateway(site);
    REQUIRE(gateway.tells(" ready "));
    // Where somebody has the pipe open to read it, it can be opened to write.
    Descriptor silent;
    REQUIRE(comes_true([&] {
        silent = Descriptor(::open(checkpoint.c_str(), O_WRONLY | O_NONBLOCK | O_CLOEXEC));
        return silent.number() >= 0;
    }));
    gateway.is_sent(SIGTERM);
    CHECK(gateway.end() == "ended with status 0");
    CHECK(gateway.has_told(
        " the gateway ends while a day is copied cause=\"its disk does not answer\"\n"));
}

// ---------------------------------------------------------------- mireseason-admin

// In the place of a gateway: it takes one connection, and answers the line that comes on it by
// these bytes, piece by piece.
class Answering {
  public:
    explicit Answering(Words pieces)
        : listening_(::socket(AF_UNIX, SOCK_STREAM | SOCK_CLOEXEC, 0)) {
        sockaddr_un address{};
        address.sun_family = AF_UNIX;
        std::copy(path.begin(), path.end(), std::begin(address.sun_path));
        REQUIRE(::bind(listening_.number(), reinterpret_cast<const sockaddr *>(&address),
                       sizeof address) == 0);
        REQUIRE(::listen(listening_.number(), 1) == 0);
        thread_ = std::jthread([this, pieces = std::move(pieces)](const std::stop_token &stop) {
            answer(pieces, stop);
        });
    }

    // The line that came, once it has been answered, or once it is known that none comes.
    std::string line() {
        thread_.request_stop();
        thread_.join();
        return line_;
    }

  private:
    const Scratch folder_{"admin"};

  public:
    const std::string path = (folder_.path() / "s").string();

  private:
    void answer(const Words &pieces, const std::stop_token &stop) {
        pollfd some{listening_.number(), POLLIN, 0};
        while (::poll(&some, 1, 10) == 0) {
            if (stop.stop_requested()) {
                return;
            }
        }
        const Descriptor connection(::accept(listening_.number(), nullptr, nullptr));
        for (char byte = 0; ::recv(connection.number(), &byte, 1, 0) == 1 && byte != '\n';) {
            line_ += byte;
        }
        for (const std::string &piece : pieces) {
            ::send(connection.number(), piece.data(), piece.size(), MSG_NOSIGNAL);
            std::this_thread::yield();
        }
    }

    Descriptor listening_;
    std::string line_;
    std::jthread thread_;
};

Done admin_of(const Words &words, const Words &env = {}) {
    return run_of(ADMIN_PROGRAM, words, "", env);
}

// What came of an answer to `status`, and what was asked.
Done answered(const Words &pieces, const Words &words = {"status"}, std::string *line = nullptr) {
    Answering gateway(pieces);
    Words all = {"--socket", gateway.path};
    all.insert(all.end(), words.begin(), words.end());
    Done done = admin_of(all);
    const std::string came = gateway.line();
    if (line != nullptr) {
        *line = came;
    }
    const std::size_t at = done.err.find(gateway.path);
    if (at != std::string::npos) {
        done.err.replace(at, gateway.path.size(), "PATH");
    }
    return done;
}

TEST_CASE("words of an operator") {
    std::string line;
    const auto asks = [&](const Words &words) {
        line.clear();
        is(answered({"ok\nyes\n"}, words, &line), 0, "yes\n", "");
        return line;
    };
    CHECK(asks({"status"}) == "1 text status");
    CHECK(asks({"--json", "status"}) == "1 json status");
    CHECK(asks({"firm", "DLR1", "--json"}) == "1 json firm DLR1");
    CHECK(asks({"halt", "--because", "a b"}) == "1 text halt --because a%20b");
    CHECK(asks({"halt", "--because", "--json"}) == "1 text halt --because --json");
    CHECK(asks({"halt", "--because", "--socket"}) == "1 text halt --because --socket");
    CHECK(asks({"halt", "--because", "--because"}) == "1 text halt --because --because");
    CHECK(asks({"--credentials", "none", "admit", "DLR1"}) == "1 text admit DLR1");
    CHECK(asks({"suspend", "DLR1", "--because", "x", "--json"}) ==
          "1 json suspend DLR1 --because x");
    CHECK(asks({"limit", "", "%"}) == "1 text limit % %25");
}

TEST_CASE("words that are none of an operator's") {
    for (const Words &words : std::vector<Words>{{},
                                                 {"--json"},
                                                 {"--socket"},
                                                 {"status", "--socket"},
                                                 {"status", "--credentials"},
                                                 {"halt", "--because"},
                                                 {"--because"}}) {
        const Done done = admin_of(words);
        CHECK(done.status == 2);
        CHECK(done.out == "");
        CHECK_MESSAGE(done.err.starts_with("usage: mireseason-admin [--socket PATH] "), done.err);
    }
    for (const Words &words : std::vector<Words>{{"--help"}, {"status", "--help"}}) {
        const Done done = admin_of(words);
        CHECK(done.status == 0);
        CHECK(done.out.starts_with("NAME\n    mireseason-admin - "));
        CHECK(done.err == "");
    }
}

TEST_CASE("a request has so many bytes") {
    const std::string longest(longest_request - std::string("1 text firm \n").size(), 'x');
    is(answered({"ok\n"}, {"firm", longest}), 0, "", "");
    is(admin_of({"--socket", "/none", "firm", longest + "x"}), 2, "",
       "mireseason-admin: these words are too long\n");
}

TEST_CASE("what a gateway answers") {
    is(answered({"o", "k\nal", "l\nmore\n"}), 0, "all\nmore\n", "");
    is(answered({"ok\n"}), 0, "", "");
    is(answered({"error\n", "no day is open\n"}), 1, "", "mireseason-admin: no day is open\n");
    is(answered({"error\n{\"error\": 1}\n"}, {"--json", "status"}), 1, "{\"error\": 1}\n", "");
    is(answered({"error\n{\"error\": 1}\n"}), 1, "", "mireseason-admin: {\"error\": 1}\n");
    is(answered({"error\nnot now\n"}, {"--json", "status"}), 1, "", "mireseason-admin: not now\n");
    for (const char *none : {"", "HTTP/1.1 400\n", "ok", "error"}) {
        is(answered({none}), 3, "",
           "mireseason-admin: no gateway answers at PATH: what answers there is no gateway, or it "
           "ended\n");
    }
}

TEST_CASE("a stream is passed on") {
    const std::string longest(longest_piece, 'x');
    is(answered({"stream\n00000003abc00000000"}), 0, "abc", "");
    is(answered({"stre", "am\n0000", "0003a", "b", "c00000002", "de0000000", "0"}), 0, "abcde", "");
    is(answered({"stream\n00000000"}), 0, "", "");
    is(answered({"stream\n" + length_of_piece(longest_piece), longest, "00000000"}), 0, longest,
       "");
    const auto not_whole = [](const std::string &pieces, const std::string &out,
                              const std::string &why) {
        is(answered({pieces}), 1, out,
           "mireseason-admin: what was written is not whole: " + why + "\n");
    };
    not_whole("stream\n", "", "the gateway ended it");
    not_whole("stream\n00000003abc", "abc", "the gateway ended it");
    not_whole("stream\n00000003ab", "", "the gateway ended it");
    not_whole("stream\n00000003abc--------the disk", "abc", "the disk");
    not_whole("stream\n" + length_of_piece(longest_piece + 1) + longest + "x", "",
              "what answers there is no gateway");
    CHECK(answered({"stream\nzzzzzzzzabc"}).status == 1);
}

// Of a long piece it is known at once: what would come behind it is not waited for.
TEST_CASE("a stream that standard output does not take") {
    const std::string longest(longest_piece, 'x');
    for (const Words &pieces :
         std::vector<Words>{{"stream\n00000003abc00000000"},
                            {"stream\n" + length_of_piece(longest_piece), longest}}) {
        Answering gateway(pieces);
        is(run({"sh", "-c", "exec \"$0\" --socket \"$1\" backup >/dev/full", ADMIN_PROGRAM,
                gateway.path}),
           1, "",
           "mireseason-admin: what was written is not whole: standard output takes no more\n");
    }
}

TEST_CASE("where the operator's socket is") {
    const auto gone = [](const std::string &path, const std::string &why) {
        return fmt::format("mireseason-admin: no gateway answers at {}: {}\n", path, why);
    };
    const std::string none = "No such file or directory", variable = "MIRESEASON_ADMIN_SOCKET=";
    is(admin_of({"--socket", "/none/s", "status"}), 3, "", gone("/none/s", none));
    is(admin_of({"status"}, {variable + "/none/t"}), 3, "", gone("/none/t", none));
    is(admin_of({"--socket", "/none/s", "status"}, {variable + "/none/t"}), 3, "",
       gone("/none/s", none));
    const std::string longest = "/none/" + std::string(sizeof sockaddr_un{}.sun_path - 7, 'x');
    is(admin_of({"--socket", longest, "status"}), 3, "", gone(longest, none));
    is(admin_of({"--socket", longest + "x", "status"}), 3, "",
       gone(longest + "x", "the socket's path is too long"));
    Answering gateway({"ok\nyes\n"});
    is(admin_of({"status"}, {variable + gateway.path}), 0, "yes\n", "");
}

// ---------------------------------------------------------------- admit

// A report of DLR1 beside the line that signs it, and a program in the place of
// mireseason-credentials, which keeps what it is called with.
struct Report {
    Report() {
        put("r.json", "the report");
        put("r.signature", line + "\n");
        put("mireseason-credentials",
            "#!/bin/sh\nprintf '%s\\n' \"$@\" >\"${0%/*}/called\"\nexit ${STATUS:-0}\n");
        fs::permissions(folder.path() / "mireseason-credentials", fs::perms::owner_all);
    }
    void put(const std::string &name, const std::string &text) const {
        std::ofstream(folder.path() / name) << text;
    }
    std::string path(const std::string &name) const { return (folder.path() / name).string(); }
    Done admit(const std::string &socket, const Words &env = {}) const {
        Words with = env;
        with.push_back(fmt::format("PATH={}:{}", path(""), std::getenv("PATH")));
        return admin_of(
            {"--socket", socket, "--credentials", "/etc/c.toml", "admit", "DLR1", path("r.json")},
            with);
    }
    // Of the program, a line each; empty where it was not called.
    std::string called() const {
        return fs::exists(path("called")) ? read_public(path("called")) : "";
    }

    const Scratch folder{"report"};
    const std::string line =
        fmt::format("mireseason-report 1 DLR1 dealer passed 20991231 {} {} {}",
                    std::string(64, 'a'), text_of(sha256("the report")), std::string(128, 'b'));
};

TEST_CASE("a report is admitted, and kept") {
    const Report report;
    Answering gateway({"ok\nDLR1 may log on\n"});
    is(report.admit(gateway.path), 0, "DLR1 may log on\n", "");
    std::string word = report.line;
    for (std::size_t at = word.find(' '); at != std::string::npos; at = word.find(' ', at)) {
        word.replace(at, 1, "%20");
    }
    CHECK(gateway.line() == "1 text admit DLR1 " + word);
    CHECK(report.called() == fmt::format("--report\n{}\nDLR1\n/etc/c.toml\n", report.line));
}

TEST_CASE("a report that is admitted for one day") {
    const Report report;
    Answering gateway({"ok\nyes\n"});
    is(report.admit(gateway.path, {"STATUS=1"}), 1, "yes\n",
       "mireseason-admin: DLR1 is admitted for this day alone: /etc/c.toml stays as it was. Call "
       "this again as root\n");
}

TEST_CASE("a report that is not admitted is kept nowhere") {
    const Report report;
    Answering gateway({"error\nno\n"});
    is(report.admit(gateway.path), 1, "", "mireseason-admin: no\n");
    CHECK(report.called() == "");
    const Report other;
    other.put("r.json", "another report");
    Answering unasked({"ok\n"});
    is(other.admit(unasked.path), 1, "",
       fmt::format("mireseason-admin: {}: signs another report than {}\n",
                   other.path("r.signature"), other.path("r.json")));
    CHECK(unasked.line() == "");
    CHECK(other.called() == "");
}

} // namespace gateway::tests
