// What an operator is told of a venue or a log that stands still, of a disk that is full, and of an
// end; and days that are copied in a thread of their own.
#define DOCTEST_CONFIG_IMPLEMENT_WITH_MAIN
#include <doctest/doctest.h>

#include "check.h"
#include "health/certificate_end.h"
#include "health/disk_reserve.h"
#include "health/liveness.h"
#include "health/metrics.h"
#include "health/silence.h"
#include "health/status.h"
#include "identity.h"
#include "revoked_list.h"
#include "service/day_copying.h"

#include <cstdio>
#include <future>
#include <memory>
#include <sstream>
#include <string>
#include <vector>

#include <fmt/chrono.h>
#include <openssl/evp.h>
#include <openssl/pem.h>
#include <openssl/x509.h>
#include <spdlog/sinks/ostream_sink.h>
#include <sys/stat.h>

namespace gateway::tests {

using namespace std::chrono_literals;

// Events, a line each, of which each is told once.
class Events {
  public:
    Events() {
        auto sink = std::make_shared<spdlog::sinks::ostream_sink_mt>(told_);
        sink->set_pattern("%l %v");
        sink->set_level(spdlog::level::trace);
        logger_ = std::make_shared<spdlog::logger>("events", sink);
    }
    const std::shared_ptr<spdlog::logger> &logger() const { return logger_; }
    std::string told() {
        std::string text = told_.str();
        told_.str("");
        return text;
    }

  private:
    std::ostringstream told_;
    std::shared_ptr<spdlog::logger> logger_;
};

TEST_CASE("a venue that answers nothing is told once, and once when it goes on") {
    Events events;
    Silence silence(events.logger(), " venue=north");
    const auto start = Silence::Clock::now() + 1h;
    silence.look(std::nullopt, 4, start - 1h);
    CHECK(silence.look(0, 4, start) == 0s); // it has read its configuration
    CHECK(silence.look(2, 4, start + 3s) == 0s);
    CHECK(silence.look(2, 5, start + 7s) == 4s);
    CHECK(silence.look(2, 5, start + 8s - 1ms) == 5s - 1ms);
    CHECK(events.told() == "");
    CHECK(silence.look(2, 6, start + 8s) == 5s);
    CHECK(events.told() == "warning venue does not answer venue=north place=3 entries=4\n");
    CHECK(silence.look(2, 6, start + 9s) == 6s);
    CHECK(events.told() == "");
    CHECK(silence.look(3, 6, start + 10s) == 0s);
    CHECK(events.told() == "info venue answers again venue=north place=3\n");
    CHECK(silence.look(3, 6, start + 16s) == 6s);
    CHECK(events.told() == "warning venue does not answer venue=north place=4 entries=3\n");
}

TEST_CASE("a venue that has nothing to answer is not silent") {
    Events events;
    Silence silence(events.logger(), "");
    const auto start = Silence::Clock::now() + 1h;
    silence.look(4, 4, start);
    CHECK(silence.look(4, 4, start + 60s) == 0s);
    CHECK(silence.look(4, 5, start + 64s) == 4s);
    CHECK(events.told() == "");
}

TEST_CASE("a venue that has answered nothing yet is asked for all") {
    Events events;
    Silence silence(events.logger(), "");
    const auto start = Silence::Clock::now();
    silence.look(0, 4, start);
    silence.look(std::nullopt, 4, start);
    silence.look(std::nullopt, 4, start + 5s);
    CHECK(events.told() == "warning venue does not answer place=0 entries=5\n");
}

TEST_CASE("a log that keeps a commit waiting is told once, and once when it goes on") {
    Events events;
    Stall stall(events.logger(), " venue=north");
    const auto start = Silence::Clock::now();
    stall.look(std::nullopt, start);
    stall.look(start, start + 5s - 1ms);
    CHECK(events.told() == "");
    stall.look(start, start + 5s);
    CHECK(events.told() == "warning log does not answer venue=north\n");
    stall.look(start, start + 9s);
    CHECK(events.told() == "");
    stall.look(start + 9s, start + 9s);
    CHECK(events.told() == "info log answers again venue=north\n");
    stall.look(start + 9s, start + 14s);
    CHECK(events.told() == "warning log does not answer venue=north\n");
    stall.look(std::nullopt, start + 15s);
    CHECK(events.told() == "info log answers again venue=north\n");
    stall.look(std::nullopt, start + 16s);
    CHECK(events.told() == "");
}

TEST_CASE("the part that has been silent longest") {
    Liveness liveness;
    CHECK_FALSE(liveness.longest());
    const auto is = [&](const std::string &part, std::chrono::seconds time) {
        const auto longest = liveness.longest();
        REQUIRE(longest);
        CHECK(longest->part == part);
        CHECK(longest->time >= time);
        CHECK(longest->time < time + 60s);
    };
    liveness.put("the venue", 200s);
    is("the venue", 200s);
    liveness.put("the log", 100s);
    is("the venue", 200s);
    liveness.put("the gateway", 300s);
    is("the gateway", 300s);
    liveness.put("the gateway");
    is("the venue", 200s);
    liveness.put("the venue");
    is("the log", 100s);
}

TEST_CASE("of failures the first is told, and none of the end") {
    Events events;
    Status status(events.logger());
    CHECK(status.exit_status() == 0);
    CHECK_FALSE(status.wait(0ms));
    CHECK_FALSE(status.failure());
    status.fail("the disk", 3);
    status.fail("the venue");
    CHECK(events.told() == "critical stop cause=\"the disk\"\n");
    CHECK(status.failure() == "the disk");
    CHECK(status.exit_status() == 3);
    CHECK(status.why() == "the disk");
    CHECK(status.wait(0ms));
    CHECK(status.failed().stop_requested());
    CHECK(status.stopping().stop_requested());
    Status ended(events.logger());
    ended.ask_to_stop("SIGTERM");
    ended.ask_to_stop("again");
    ended.end();
    ended.fail("the venue");
    CHECK(events.told() == "");
    CHECK(ended.why() == "SIGTERM");
    CHECK(ended.exit_status() == 0);
    CHECK_FALSE(ended.failed().stop_requested());
}

TEST_CASE("room is held back until there is an eighth more") {
    const Scratch folder("room");
    const auto room = room_of(folder.path());
    REQUIRE(room);
    CHECK(room->free <= room->bytes);
    CHECK_FALSE(room_of(folder.path() / "none"));
    CHECK_FALSE(DiskReserve(folder.path(), 0).is_reached());
    const DiskReserve huge(folder.path(), room->bytes + 1);
    CHECK(huge.is_reached());
    CHECK(huge.reserve() == room->bytes + 1);
    CHECK(huge.free_bytes().value_or(0) > 0);
    const DiskReserve none("", 1);
    CHECK(none.reserve() == 0);
    CHECK_FALSE(none.is_reached());
    CHECK_FALSE(none.free_bytes());
}

// A copy that waits until it may end.
struct Copying {
    std::vector<std::string> asked;
    std::promise<void> begun;
    std::promise<void> may_end;
    DayCopying copying{[this](const std::string &before, const std::stop_token &) {
        asked.push_back(before);
        if (asked.size() == 1) {
            begun.set_value();
            may_end.get_future().wait();
        }
    }};
};

TEST_CASE("of what is asked while a day is copied the last is done") {
    Copying one;
    CHECK(one.copying.ask("20261130"));
    one.begun.get_future().wait();
    CHECK_FALSE(one.copying.ask("20261201"));
    CHECK_FALSE(one.copying.ask("20261202"));
    CHECK_FALSE(one.copying.ends_within(1ms));
    one.may_end.set_value();
    CHECK(one.copying.ends_within(60s));
    CHECK(one.asked.front() == "20261130");
    CHECK(one.asked.size() == 1); // it was to end before
}

TEST_CASE("days are copied one after the other") {
    std::promise<void> first, second;
    DayCopying copying([&](const std::string &before, const std::stop_token &) {
        (before == "a" ? first : second).set_value();
    });
    copying.ask("a");
    first.get_future().wait();
    copying.ask("b");
    CHECK(second.get_future().wait_for(60s) == std::future_status::ready);
    CHECK(copying.ends_within(60s));
}

// ---------------------------------------------------------------- certificates

// Puts a certificate behind what the file has, which ends in so many seconds.
void add_certificate(const std::filesystem::path &file, long seconds) {
    const Owned<EVP_PKEY> key(EVP_PKEY_Q_keygen(nullptr, nullptr, "ED25519"), EVP_PKEY_free);
    const Owned<X509> own(X509_new(), X509_free);
    X509_set_version(own.get(), X509_VERSION_3);
    X509_gmtime_adj(X509_getm_notBefore(own.get()), 0);
    X509_gmtime_adj(X509_getm_notAfter(own.get()), seconds);
    X509_set_pubkey(own.get(), key.get());
    REQUIRE(X509_sign(own.get(), key.get(), nullptr) > 0);
    const std::unique_ptr<FILE, int (*)(FILE *)> to(std::fopen(file.c_str(), "a"), std::fclose);
    REQUIRE(PEM_write_X509(to.get(), own.get()) == 1);
}

// Whether something is known to end in about so much time.
bool ends_in(const std::optional<std::chrono::system_clock::time_point> &end,
             std::chrono::seconds time) {
    REQUIRE(end);
    const auto off = *end - (std::chrono::system_clock::now() + time);
    return off < 60s && off > -60s;
}

// Of a chain the first to end.
TEST_CASE("when certificates end") {
    const Scratch folder("certificates");
    const auto file = folder.path() / "chain.pem";
    CHECK_FALSE(end_of_certificates(file));
    add_certificate(file, 7200);
    CHECK(ends_in(end_of_certificates(file), 7200s));
    add_certificate(file, 3600);
    CHECK(ends_in(end_of_certificates(file), 3600s));
    add_certificate(file, 10800);
    CHECK(ends_in(end_of_certificates(file), 3600s));
    CHECK_FALSE(end_of_certificates(folder.path()));
    const auto pipe = folder.path() / "pipe";
    REQUIRE(::mkfifo(pipe.c_str(), 0600) == 0);
    CHECK_FALSE(end_of_certificates(pipe)); // it waits for nobody
}

// Of several lists the first to end.
TEST_CASE("when lists of revoked certificates end") {
    const Scratch folder("certificates");
    const auto file = folder.path() / "revoked.pem";
    CHECK_FALSE(end_of_lists(file));
    add_list(file, -60s, std::nullopt);
    CHECK_FALSE(end_of_lists(file));
    add_list(file, -60s, 7200s);
    CHECK(ends_in(end_of_lists(file), 7200s));
    add_list(file, -60s, 3600s);
    CHECK(ends_in(end_of_lists(file), 3600s));
    CHECK_FALSE(end_of_lists(folder.path()));
    CHECK_FALSE(end_of_lists(""));
}

TEST_CASE("what ends is told some days before") {
    const Scratch folder("certificates");
    EngineSettings settings;
    const auto now = std::chrono::floor<std::chrono::seconds>(std::chrono::system_clock::now());
    CHECK(ends_soon(settings, now).empty());
    settings.certificate = folder.path() / "own.pem";
    settings.authorities = folder.path() / "firms.pem";
    settings.revoked = folder.path() / "revoked.pem";
    add_certificate(settings.certificate, 15 * 86400);
    add_certificate(settings.authorities, 20 * 86400);
    add_list(settings.revoked, -60s, std::chrono::days(4));
    CHECK(ends_soon(settings, now).empty());
    const std::string moment =
        fmt::format("{:%Y-%m-%dT%H:%M:%SZ}",
                    fmt::gmtime(end_of_lists(settings.revoked).value().time_since_epoch().count()));
    const auto told = ends_soon(settings, now + 24h + 60s);
    REQUIRE(told.size() == 2);
    CHECK(told[0].starts_with(
        fmt::format("[tls] certificate = \"{}\" ends at 20", settings.certificate)));
    CHECK(told[1] == fmt::format("[tls] revoked = \"{}\" ends at {}, and then nobody can log on",
                                 settings.revoked, moment));
    const auto later = ends_soon(settings, now + std::chrono::days(30));
    REQUIRE(later.size() == 3);
    CHECK(later[1].starts_with(
        fmt::format("[tls] authorities = \"{}\" ends at 20", settings.authorities)));
}

// Who lets firms' certificates be looked up in lists asks each authority for one.
TEST_CASE("an authority that has no list") {
    const Scratch folder("certificates");
    const Identity own({"own"}, 1);
    const Identity same_name({"own"}, 2);
    const Identity root({"root"}, 3);
    const Identity below({"below"}, 4, &root);
    EngineSettings settings;
    settings.authorities = own.certificate(folder.path() / "firms.pem");
    CHECK(without_list(settings).empty());
    settings.revoked = same_name.revoked(folder.path() / "revoked.pem", 7);
    const std::vector<std::string> told = {
        fmt::format("[tls] revoked = \"{}\" has no list of CN=own: nobody to whom this authority "
                    "gave a certificate can log on",
                    settings.revoked)};
    CHECK(without_list(settings) == told);
    own.revoked(settings.revoked, 7);
    CHECK(without_list(settings).empty());
    same_name.certificate(settings.authorities, "a");
    CHECK(without_list(settings) == told);
    same_name.revoked(settings.revoked, 7, "a");
    CHECK(without_list(settings).empty());
    // One that vouches for another authority may have given no firm a certificate.
    root.certificate(settings.authorities);
    below.certificate(settings.authorities, "a");
    below.revoked(settings.revoked, 7);
    CHECK(without_list(settings).empty());
    root.revoked(settings.revoked, 7);
    REQUIRE(without_list(settings).size() == 1);
    CHECK(without_list(settings)[0].find(" CN=below: ") != std::string::npos);
}

// ---------------------------------------------------------------- numbers

// What a number says, by its name and its labels; empty where there is none.
std::string said_by(const Metrics &metrics, const std::string &name) {
    const std::string text = "\n" + metrics.text();
    const std::size_t at = text.find("\n" + name + " ");
    if (at == std::string::npos) {
        return "";
    }
    const std::size_t begin = at + name.size() + 2;
    return text.substr(begin, text.find('\n', begin) - begin);
}

// Those that are shown, and those that are asked for.
TEST_CASE("a number for each file of certificates") {
    const Scratch folder("certificates");
    EngineSettings settings;
    Metrics metrics;
    count_certificates(settings, metrics);
    settings.certificate = folder.path() / "own.pem";
    settings.authorities = folder.path() / "firms.pem";
    const auto said_of = [&metrics](const std::string &file) {
        return said_by(metrics, fmt::format("mireseason_certificate_expiry_timestamp_seconds"
                                            "{{file=\"{}\"}}",
                                            file));
    };
    count_certificates(settings, metrics);
    CHECK(said_of(settings.certificate) == "");
    CHECK(said_of(settings.authorities) == "");
    add_certificate(settings.certificate, 3600);
    add_certificate(settings.authorities, 7200);
    count_certificates(settings, metrics);
    for (const std::string &file : {settings.certificate, settings.authorities}) {
        const auto end = end_of_certificates(file)->time_since_epoch().count();
        CHECK(std::stod(said_of(file)) == static_cast<double>(end));
    }
}

// A time is told by the bound that it stays below: 1, 2 and 5 of each power of ten, up to a second.
TEST_CASE("bounds of times") {
    Metrics metrics;
    metrics.answered(1ms);
    for (const char *bound :
         {"0.001", "0.002", "0.005", "0.01", "0.02", "0.05", "0.1", "0.2", "0.5", "1"}) {
        CHECK_MESSAGE(
            said_by(metrics,
                    fmt::format("mireseason_answered_seconds_bucket{{le=\"{}\"}}", bound)) == "1",
            bound);
    }
    for (const char *bound : {"0.0001", "0.0002", "0.0005"}) {
        CHECK_MESSAGE(
            said_by(metrics,
                    fmt::format("mireseason_answered_seconds_bucket{{le=\"{}\"}}", bound)) == "0",
            bound);
    }
    Metrics fast;
    fast.answered(7us);
    for (const auto &[bound, count] : {std::pair("5e-06", "0"), {"1e-05", "1"}, {"2e-05", "1"}}) {
        CHECK_MESSAGE(said_by(fast, fmt::format("mireseason_answered_seconds_bucket{{le=\"{}\"}}",
                                                bound)) == count,
                      bound);
    }
}

TEST_CASE("what an operator should ask a firm") {
    Metrics metrics;
    FirmMetrics &firm = metrics.firm("", "DLR1");
    CHECK(firm.counts().doubt.empty());
    firm.may_have_lost_store({1, 92, 91});
    CHECK(firm.counts().doubt == "may have lost its store from=1 to=92 refused=91");
}

TEST_CASE("each number says what happened") {
    Metrics metrics;
    metrics.committed(2, 3, 250ms);
    metrics.copied(4);
    metrics.sealed(500ms);
    metrics.logged(750ms);
    metrics.answered(1s);
    metrics.handed_over(1250ms);
    metrics.delivered();
    metrics.connected();
    metrics.connected();
    metrics.disconnected();
    metrics.logged_on();
    metrics.logged_on();
    metrics.logged_off();
    metrics.refused("no Logon");
    metrics.dropped("garbled");
    metrics.firm("north", "F");
    metrics.wrong_password("F");
    metrics.venue_started();
    metrics.clock_set();
    metrics.clock_is(true, 500ms);
    metrics.speaks();
    metrics.next_configuration_is_right(false);
    metrics.backlog("north", 5, 6);
    metrics.log_disk("north", 7, 8, true);
    metrics.halted("north", true, 9);
    metrics.clock_is_doubtful("north", true);
    metrics.venue_is("north", "1.2");
    metrics.is_now(true, false);
    metrics.day_is(std::chrono::sys_seconds(10s), std::chrono::sys_seconds(11s));
    metrics.days_without_copy(12);
    metrics.certificate_ends("own.pem", std::chrono::sys_seconds(13s));
    const std::vector<std::pair<std::string, std::string>> all = {
        {"commits_total", "1"},
        {"entries_total", "2"},
        {"sent_total", "7"},
        {"commit_seconds_sum", "0.25"},
        {"commit_seconds_count", "1"},
        {"seal_seconds_sum", "0.5"},
        {"logged_seconds_sum", "0.75"},
        {"answered_seconds_sum", "1"},
        {"handed_over_seconds_sum", "1.25"},
        {"delivered_total", "1"},
        {"connections_total", "2"},
        {"connections", "1"},
        {"logons_total", "2"},
        {"sessions", "1"},
        {"refused_total{reason=\"no Logon\"}", "1"},
        {"dropped_total{reason=\"garbled\"}", "1"},
        {"wrong_passwords_total{firm=\"F\"}", "1"},
        {"venue_starts_total", "1"},
        {"clock_steps_total", "1"},
        {"clock_synchronised", "1"},
        {"clock_greatest_error_seconds", "0.5"},
        {"speaks", "1"},
        {"next_configuration_faulty", "1"},
        {"venue_backlog_entries{venue=\"north\"}", "5"},
        {"log_backlog_messages{venue=\"north\"}", "6"},
        {"log_disk_free_bytes{venue=\"north\"}", "7"},
        {"log_disk_reserve_bytes{venue=\"north\"}", "8"},
        {"log_disk_reserve_reached{venue=\"north\"}", "1"},
        {"halted{venue=\"north\"}", "1"},
        {"halted_bonds{venue=\"north\"}", "9"},
        {"clock_doubtful{venue=\"north\"}", "1"},
        {"venue_info{venue=\"north\",version=\"1.2\"}", "1"},
        {"ready", "1"},
        {"healthy", "0"},
        {"day_opens_timestamp_seconds", "10"},
        {"day_ends_timestamp_seconds", "11"},
        {"days_without_copy", "12"},
        {"certificate_expiry_timestamp_seconds{file=\"own.pem\"}", "13"},
    };
    for (const auto &[name, value] : all) {
        CHECK_MESSAGE(said_by(metrics, "mireseason_" + name) == value, name);
    }
    metrics.is_now(false, true);
    metrics.speaks_no_more();
    metrics.next_configuration_is_right(true);
    metrics.log_disk("north", 7, 8, false);
    metrics.halted("north", false, 0);
    metrics.clock_is_doubtful("north", false);
    metrics.clock_is(false, 0ms);
    for (const char *name : {"ready", "speaks", "next_configuration_faulty", "clock_synchronised",
                             "log_disk_reserve_reached{venue=\"north\"}", "halted{venue=\"north\"}",
                             "halted_bonds{venue=\"north\"}", "clock_doubtful{venue=\"north\"}"}) {
        CHECK_MESSAGE(said_by(metrics, std::string("mireseason_") + name) == "0", name);
    }
    CHECK(said_by(metrics, "mireseason_healthy") == "1");
}

} // namespace gateway::tests
