// Tests whom a venue's day lets in, and what it writes about them into its log: Logons judged,
// connections and the messages that came on them, strangers, and connections that their gateway
// left open.
#define DOCTEST_CONFIG_IMPLEMENT_WITH_MAIN
#include <doctest/doctest.h>

#include "check.h"
#include "common/frame.h"
#include "common/password.h"
#include "day/begin_term.h"
#include "log/sqlite_statement.h"
#include "quiet_venue.h"
#include "room_of_day.h"
#include "session/refusal_words.h"
#include "test_keys.h"

#include <chrono>
#include <csignal>
#include <ctime>
#include <filesystem>
#include <fstream>
#include <memory>

#include <crypt.h>

namespace gateway::tests {

namespace {

using namespace std::chrono_literals;

Config config_of(const std::filesystem::path &folder) {
    wait_for_room_of_day();
    std::filesystem::remove_all(folder);
    std::filesystem::create_directories(folder);
    std::ofstream(folder / "venue.sh") << venue_text;
    Config config;
    config.command = {"sh", (folder / "venue.sh").string()};
    config.program = "/bin/sh";
    config.configuration = "version = 1\n";
    config.firms = {today(), {"F", "G", "NOPASS"}};
    config.sqlite = folder / "day.db";
    config.credentials["F"] = {"fred", new_hash("right"), ""};
    config.credentials["G"] = {"gail", new_hash("other"), ""};
    give_keys(config, folder);
    return config;
}

// A gateway's day up to where its engine would take connections.
struct OpenedDay {
    explicit OpenedDay(const Config &given)
        : config(given), engine({}, {}, told), day(config, metrics, status, events, told),
          leader(begin_term(day, engine, [] { return true; })) {
        told.tell_strangers_to([this](const ConnectionFacts &facts, const std::string &why) {
            leader->put_stranger(facts, why);
        });
        host = leader->session_starts().at(0).host;
        leader->start();
    }

    const Config config;
    Metrics metrics;
    std::shared_ptr<spdlog::logger> events = std::make_shared<spdlog::logger>("none");
    Status status{events};
    OperatorEvents told{metrics, events};
    Engine engine;
    VenueDay day;
    const std::unique_ptr<Leader> leader;
    SessionHost *host = nullptr;
};

struct JudgedLogon {
    LogonFacts facts; // firm, username, password, over_tls, certificate
    Refusal refusal;
};

void judged(const std::filesystem::path &folder) {
    Config config = config_of(folder);
    config.engine.client_certificates = true;
    OpenedDay opened(config);
    for (const JudgedLogon &each : {
             JudgedLogon{{"F", "fred", "right", true, "F", ""}, Refusal::none},
             JudgedLogon{{"NOBODY", "fred", "right", true, "F", ""}, Refusal::unknown_name},
             JudgedLogon{{"", "", "", true, "", ""}, Refusal::unknown_name},
             JudgedLogon{{"NOPASS", "fred", "right", true, "NOPASS", ""}, Refusal::no_access},
             JudgedLogon{{"F", "gail", "right", true, "F", ""}, Refusal::wrong_name},
             JudgedLogon{{"F", "fred", "other", true, "F", ""}, Refusal::wrong_password},
             JudgedLogon{{"F", "fred", "", true, "F", ""}, Refusal::wrong_password},
             JudgedLogon{{"F", "fred", std::string("right\0x", 7), true, "F", ""},
                         Refusal::wrong_password},
             JudgedLogon{{"F", "fred", "right", true, "G", ""}, Refusal::wrong_certificate},
             JudgedLogon{{"F", "fred", "right", true, "", ""}, Refusal::wrong_certificate},
             JudgedLogon{{"F", "fred", "other", true, "G", ""}, Refusal::wrong_password},
         }) {
        const Refusal refusal = opened.host->judge(each.facts);
        check(refusal == each.refusal,
              fmt::format("{} {} {}: refusal {}", each.facts.firm, each.facts.username,
                          each.facts.certificate, static_cast<int>(refusal)));
    }
}

// Whatever is at fault the next Logon of the address waits: so nobody learns which it was, nor that
// a password was right.
void pauses_for_all(const std::filesystem::path &folder) {
    Config config = config_of(folder);
    config.engine.client_certificates = true;
    config.credentials["G"].ends = "20000101";
    OpenedDay opened(config);
    const JudgedLogon tries[] = {
        {{"F", "fred", "other", true, "F", "10.0.0.1"}, Refusal::wrong_password},
        {{"F", "fred", "right", true, "G", "10.0.0.2"}, Refusal::wrong_certificate},
        {{"G", "gail", "other", true, "G", "10.0.0.3"}, Refusal::no_longer},
    };
    for (const JudgedLogon &each : tries) {
        check(opened.host->judge(each.facts) == each.refusal, "refused for another reason");
        check(opened.host->judges_from(each.facts.address) > SessionHost::Time(),
              fmt::format("no pause after refusal {}", static_cast<int>(each.refusal)));
    }
    check(opened.host->judge({"F", "fred", "right", true, "F", "10.0.0.4"}) == Refusal::none &&
              opened.host->judges_from("10.0.0.4") == SessionHost::Time(),
          "a pause after what is right");
}

// Of this thread's processor, so that other processes do not matter much: the least of some.
std::chrono::nanoseconds work_of(SessionHost &host, const LogonFacts &facts) {
    const auto spent = [] {
        timespec now{};
        ::clock_gettime(CLOCK_THREAD_CPUTIME_ID, &now);
        return std::chrono::seconds(now.tv_sec) + std::chrono::nanoseconds(now.tv_nsec);
    };
    auto least = std::chrono::nanoseconds::max();
    for (int count = 0; count < 5; ++count) {
        const auto begin = spent();
        host.judge(facts);
        least = std::min(least, spent() - begin);
    }
    return least;
}

// A name that nobody has is as much work as one that somebody has, a wrong username as much as a
// wrong password, and a password as much as any other, also one that crypt(5) does not take.
void as_long_for_every_name(const std::filesystem::path &folder) {
    OpenedDay opened(config_of(folder));
    const auto right = work_of(*opened.host, {"F", "fred", "right", false, "", ""});
    std::vector<LogonFacts> all;
    for (const std::size_t length : {0, 511, 512, 513, 3000}) {
        all.push_back({"F", "fred", std::string(length, 'x'), false, "", ""});
        all.push_back({"NOBODY", "fred", std::string(length, 'x'), false, "", ""});
    }
    all.push_back({"F", "fred", std::string("right\0x", 7), false, "", ""});
    all.push_back({"F", "fred", std::string("\0", 1), false, "", ""});
    all.push_back({"NOBODY", "fred", "right", false, "", ""});
    all.push_back({"NOPASS", "fred", "right", false, "", ""});
    all.push_back({"F", "x", "right", false, "", ""});
    for (const LogonFacts &facts : all) {
        check(opened.host->judge(facts) != Refusal::none, "a wrong one is let in");
        const auto work = work_of(*opened.host, facts);
        check(work > right / 2 && work < right * 2,
              fmt::format("{} {}, {} bytes: {} ns, and {} ns of one that is right", facts.firm,
                          facts.username, facts.password.size(), work.count(), right.count()));
    }
}

// A hash of a method and a cost of crypt(5), `$6$` or `$2b$`.
std::string hash_by(const char *method, unsigned long cost, const char *password) {
    char setting[CRYPT_GENSALT_OUTPUT_SIZE] = "";
    check(::crypt_gensalt_rn(method, cost, nullptr, 0, setting, sizeof setting) != nullptr,
          std::string("no salt of ") + method);
    const auto data = std::make_unique<crypt_data>();
    return ::crypt_r(password, setting, data.get());
}

// Also where firms' passwords are hashed by several methods, one at several costs.
void as_long_with_several_methods(const std::filesystem::path &folder) {
    Config config = config_of(folder);
    config.credentials["F"].password_hash = hash_by("$6$", 90'000, "right");
    config.credentials["G"].password_hash = hash_by("$2b$", 8, "other");
    OpenedDay opened(config);
    check(opened.host->judge({"F", "fred", "right", false, "", ""}) == Refusal::none &&
              opened.host->judge({"G", "gail", "other", false, "", ""}) == Refusal::none,
          "a right password is refused");
    check(opened.host->judge({"F", "fred", "other", false, "", ""}) == Refusal::wrong_password &&
              opened.host->judge({"G", "gail", "right", false, "", ""}) == Refusal::wrong_password,
          "another firm's password is taken");
    const auto right = work_of(*opened.host, {"F", "fred", "right", false, "", ""});
    for (const char *name : {"G", "NOPASS", "NOBODY", "NOBODY2", "NOBODY8", "A", ""}) {
        const auto work = work_of(*opened.host, {name, "fred", "right", false, "", ""});
        check(work > right / 2 && work < right * 2,
              fmt::format("{}: {} ns, and {} ns of F", name, work.count(), right.count()));
    }
}

TEST_CASE("settings") {
    for (const auto &[hash, setting] : std::vector<std::pair<std::string, std::string>>{
             {"$y$j9T$abc./$hash", "$y$j9T$"},
             {"$6$salt$hash", "$6$"},
             {"$6$rounds=90000$salt$hash", "$6$rounds=90000$"},
             {"$2b$12$abcdefghijklmnopqrstuuhash", "$2b$12$"},
             {"$7$CU..../....salt$hash", "$7$CU..../...."},
             {"$1$salt$hash", "$1$"},
             {"$", "$"},
             {"", ""},
         }) {
        same(setting, setting_of(hash), "the setting of " + hash);
    }
    check(setting_of(new_hash("a")) == setting_of(new_hash("b")), "two settings of new hashes");
}

// Whether a message of F is taken on a connection.
bool is_taken(SessionHost &host, std::uint32_t number, const Receipt &receipt) {
    const std::string bytes = framed(with_soh(
        fmt::format("35=Z|49=F|56=VENUE|34={}|52=20250314-09:00:00.000|50=T|298=4|", number)));
    SessionEvent event;
    event.numbers.expected = number + 1;
    event.is_logged_on = true;
    try {
        return host.take("F", {bytes, number, receipt}, event).verdict == Taken::Verdict::taken;
    } catch (const std::runtime_error &) {
        return false;
    }
}

// What the log has of its connections, a line each: all but times and hashes.
std::vector<std::string> rows_of(const Config &config) {
    const auto connection = sqlite::connect(config.sqlite.string(), SQLITE_OPEN_READONLY);
    sqlite::Statement row(connection.get(),
                          "SELECT event || ' ' || entry || ' ' || coalesce(number, '-') || ' ' || "
                          "coalesce(firm, '-') || ' ' || address || ' ' || "
                          "coalesce(certificate, '-') || ' ' || coalesce(why, '-') || ' ' || "
                          "left_out FROM connection ORDER BY place");
    std::vector<std::string> rows;
    while (row.step()) {
        rows.push_back(row.bytes(0));
    }
    return rows;
}

void same_rows(const Config &config, const std::vector<std::string> &wanted) {
    same(fmt::format("{}", fmt::join(wanted, "\n")),
         fmt::format("{}", fmt::join(rows_of(config), "\n")), "the rows of connections");
}

const ConnectionFacts at_f{"10.0.0.1:4001", "F", true};

// Messages come on a connection from its Logon to its end, and on no other.
void on_a_connection(const std::filesystem::path &folder) {
    const Config config = config_of(folder);
    {
        OpenedDay opened(config);
        SessionHost &host = *opened.host;
        const auto now = std::chrono::system_clock::now();
        check(!is_taken(host, 2, {1, now}), "a message is taken before a Logon");
        same(1U, host.logon_accepted("F", at_f), "the number of the first connection");
        check(is_taken(host, 2, {1, now}), "a message is not taken after its Logon");
        check(!is_taken(host, 3, {2, now}) && !is_taken(host, 3, {0, now}),
              "a message is taken on another connection");
        host.connection_ended("F", 1, "Connection\nreset");
        check(!is_taken(host, 3, {1, now}), "a message is taken after its connection's end");
        same(2U, host.logon_accepted("F", {"10.0.0.1:4002", "", false}), "of the second");
        // The clock is set back.
        check(is_taken(host, 3, {2, now}) && is_taken(host, 4, {2, now - 1s}),
              "a message of the second is not taken");
        // The one that has it says so late.
        same(3U, host.logon_accepted("F", at_f), "of the third");
        host.connection_ended("F", 2, "late");
        host.all_received();
        opened.leader->finish();
        opened.leader->end(true);
    }
    same_rows(config,
              {"logon 2 1 F 10.0.0.1:4001 F - 0", "end 3 1 F 10.0.0.1:4001 F Connection?reset 0",
               "logon 3 2 F 10.0.0.1:4002 - - 0", "end 5 2 F 10.0.0.1:4002 - another one began 0",
               "logon 5 3 F 10.0.0.1:4001 F - 0"});
    // The first two entries say how the clock was, and which gateway speaks.
    const auto entries = open_sqlite(config.sqlite.string())->reader()->entries(3, 9);
    same<std::size_t>(3, entries.size(), "entries");
    same(1U, entries[0].connection.value_or(0), "the first one's connection");
    same(2U, entries[1].connection.value_or(0), "the second one's");
    same(entries[1].received, entries[2].received, "a receipt on one connection that falls");
    OpenedDay again(config);
    same(4U, again.host->logon_accepted("G", at_f), "after a start");
    again.leader->end(true);
    const auto rows = rows_of(config);
    same<std::string>("end 5 3 F 10.0.0.1:4001 F its gateway was gone 0", rows.at(5),
                      "the end of the one that was open");
}

// A quote waits for its turn, and the venue is halted meanwhile.
void judged_after_its_turn(const std::filesystem::path &folder) {
    OpenedDay opened(config_of(folder));
    SessionHost &host = *opened.host;
    const Receipt receipt{host.logon_accepted("F", at_f), std::chrono::system_clock::now()};
    host.wait_for_turn("F", receipt);
    opened.day.halts.set({"", true});
    const std::string quote =
        framed(with_soh("35=S|49=F|56=VENUE|34=2|52=20250314-09:00:00.000|50=T|117=q1|131=R1|"
                        "48=BOND|22=4|133=99.5|"));
    SessionEvent event;
    event.is_logged_on = true;
    const Taken taken = host.take("F", {quote, 2, receipt}, event);
    host.give_turn_back("F");
    check(taken.verdict == Taken::Verdict::denied, "it is not judged when its turn has come");
    check(taken.text.starts_with("the venue is halted"), "judged as: " + taken.text);
}

// However often strangers come: ten rows of each kind, and a count.
void strangers(const std::filesystem::path &folder) {
    const Config config = config_of(folder);
    {
        OpenedDay opened(config);
        for (int count = 0; count < 500; ++count) {
            opened.told.stranger(
                {"10.0.0.9:1", std::string("\xff\x01", 2) + std::string(900, 'x'), true},
                stranger_words::no_logon, "not to be kept");
            opened.host->logon_refused("F", {"10.0.0.9:2", "", false},
                                       refusal_words::wrong_password);
        }
        opened.leader->finish();
        opened.leader->end(true);
    }
    std::vector<std::string> wanted;
    for (int count = 0; count < 10; ++count) {
        wanted.push_back("stranger 2 - - 10.0.0.9:1 ?|" + std::string(195, 'x') + "... no Logon 0");
        wanted.push_back("refused 2 - F 10.0.0.9:2 - wrong password 0");
    }
    wanted.push_back("left out 2 - -  - no Logon 490");
    wanted.push_back("left out 2 - -  - wrong password 490");
    same_rows(config, wanted);
}

TEST_CASE("judged") {
    std::signal(SIGPIPE, SIG_IGN);
    const Scratch folder("who_it_was");
    judged(folder.path());
}

TEST_CASE("judged after its turn") {
    std::signal(SIGPIPE, SIG_IGN);
    const Scratch folder("who_it_was");
    judged_after_its_turn(folder.path());
}

TEST_CASE("a pause for whatever is wrong") {
    std::signal(SIGPIPE, SIG_IGN);
    const Scratch folder("who_it_was");
    pauses_for_all(folder.path());
}

TEST_CASE("as long for every name") {
    std::signal(SIGPIPE, SIG_IGN);
    const Scratch folder("who_it_was");
    as_long_for_every_name(folder.path());
}

TEST_CASE("as long with several methods") {
    std::signal(SIGPIPE, SIG_IGN);
    const Scratch folder("who_it_was");
    as_long_with_several_methods(folder.path());
}

TEST_CASE("on a connection") {
    std::signal(SIGPIPE, SIG_IGN);
    const Scratch folder("who_it_was");
    on_a_connection(folder.path());
}

TEST_CASE("strangers") {
    std::signal(SIGPIPE, SIG_IGN);
    const Scratch folder("who_it_was");
    strangers(folder.path());
}

} // namespace

} // namespace gateway::tests
