// A gateway over its days, in this process: which day it opens, with what it goes on, and what its
// operator is told meanwhile.
#define DOCTEST_CONFIG_IMPLEMENT_WITH_MAIN
#include <doctest/doctest.h>

#include "comes_true.h"
#include "common/descriptor.h"
#include "config/start_configuration.h"
#include "operator/admin_words.h"
#include "rest_of.h"
#include "service/day_hours.h"
#include "service/service.h"
#include "site.h"

#include <algorithm>
#include <array>
#include <chrono>
#include <filesystem>
#include <future>
#include <memory>
#include <mutex>
#include <string>
#include <string_view>
#include <thread>
#include <utility>
#include <vector>

#include <dirent.h>
#include <dlfcn.h>
#include <fmt/chrono.h>
#include <fmt/format.h>
#include <sys/socket.h>
#include <sys/un.h>

namespace gateway::tests {

using namespace std::chrono_literals;
using Words = std::vector<std::string>;

std::string date_of(SystemSeconds moment) {
    return fmt::format("{:%Y%m%d}", fmt::gmtime(moment.time_since_epoch().count()));
}
std::string text_of(SystemSeconds moment) {
    return fmt::format("{:%Y-%m-%dT%H:%M:%SZ}", fmt::gmtime(moment.time_since_epoch().count()));
}

constexpr const char *waits_for_operator =
    "error waits for the operator: mireseason-admin log accept-loss, or put the log back and "
    "restart";

// What is answered to these bytes.
template <class Address>
std::string answer_at(int family, const Address &address, const std::string &bytes) {
    const Descriptor socket(::socket(family, SOCK_STREAM | SOCK_CLOEXEC, 0));
    check(::connect(socket.number(), reinterpret_cast<const sockaddr *>(&address),
                    sizeof address) == 0,
          "nobody listens");
    check(::send(socket.number(), bytes.data(), bytes.size(), MSG_NOSIGNAL) ==
              static_cast<ssize_t>(bytes.size()),
          "it takes nothing");
    return rest_of(socket);
}

// The disk of a folder takes three seconds to answer whoever lists it next: a look at it is given
// up after two.
class SlowFolder {
  public:
    void is_next(const std::string &path) {
        const std::lock_guard lock(mutex_);
        path_ = path;
    }
    bool is_it(const std::string &path) {
        const std::lock_guard lock(mutex_);
        return path == path_ && !std::exchange(path_, "").empty();
    }

  private:
    std::mutex mutex_;
    std::string path_;
};
SlowFolder slow_folder;

extern "C" DIR *fdopendir(int folder) {
    using Open = DIR *(*)(int);
    static const auto open = reinterpret_cast<Open>(::dlsym(RTLD_NEXT, "fdopendir"));
    if (slow_folder.is_it(fs::read_symlink(fmt::format("/proc/self/fd/{}", folder)))) {
        std::this_thread::sleep_for(3s);
    }
    return open(folder);
}

// It is asked to stop at its end, if it has not ended before.
class Served {
  public:
    ~Served() {
        if (service_) {
            service_->ask_to_stop("the test is over");
        }
        if (running_.valid()) {
            running_.wait();
        }
    }
    Served() = default;
    Served(const Served &) = delete;
    Served &operator=(const Served &) = delete;

    void start(const std::string &lines = "") {
        site.add(fmt::format("{}[operator]\nsocket = \"s\"\n[metrics]\nport = {}\n", lines,
                             metrics_port_));
        start_as_it_is();
    }
    void start_as_it_is() {
        recent_ = std::make_shared<RecentEvents>(1000);
        recent_->set_pattern("%l %v");
        ConfigFiles files;
        std::vector<Config> configs = read_configs_of_start(files, site.file(), day);
        service_ = std::make_unique<Service>(site.file(), std::move(files), std::move(configs),
                                             std::make_shared<spdlog::logger>("events", recent_),
                                             recent_, SystemdSocket());
        running_ = std::async(std::launch::async, [this] { return service_->run(); });
    }
    Service &service() { return *service_; }
    // The status with which it ends.
    int ended() { return running_.get(); }
    bool comes_to_end() const { return running_.wait_for(1min) == std::future_status::ready; }
    int stopped(const std::string &why = "enough") {
        service_->ask_to_stop(why);
        return ended();
    }

    bool comes_to(Phase phase) {
        return comes_true([&] { return service_->condition().phase == phase; });
    }
    bool is_told(const std::string &event) const {
        const std::vector<std::string> all = recent_->last_formatted();
        return std::ranges::any_of(
            all, [&](const std::string &each) { return each.substr(0, each.find('\n')) == event; });
    }
    bool comes_to_tell(const std::string &event) const {
        return comes_true([&] { return is_told(event); });
    }
    std::string asks(const Words &words, bool wants_json = false) const {
        sockaddr_un address{};
        address.sun_family = AF_UNIX;
        const std::string path = (site / "s").string();
        std::copy(path.begin(), path.end(), std::begin(address.sun_path));
        return answer_at(AF_UNIX, address, line_of({wants_json, words}));
    }
    bool answers(const Words &words, const std::string &part) const {
        const std::string answer = asks(words);
        CHECK_MESSAGE(answer.find(part) != std::string::npos, answer);
        return answer.find(part) != std::string::npos;
    }
    // A page for people and programs of this machine.
    bool shows(const std::string &path, const std::string &part) const {
        sockaddr_in address{};
        address.sin_family = AF_INET;
        address.sin_addr.s_addr = htonl(INADDR_LOOPBACK);
        address.sin_port = htons(metrics_port_);
        const std::string page = answer_at(
            AF_INET, address,
            fmt::format("GET {} HTTP/1.1\r\nHost: 127.0.0.1:{}\r\nConnection: close\r\n\r\n", path,
                        metrics_port_));
        CHECK_MESSAGE(page.find(part) != std::string::npos, page);
        return page.find(part) != std::string::npos;
    }

    // By which today is no trading day, and tomorrow is one.
    std::string closed_today() const {
        constexpr std::array<const char *, 7> names = {"Sun", "Mon", "Tue", "Wed",
                                                       "Thu", "Fri", "Sat"};
        const unsigned today =
            std::chrono::weekday(std::chrono::floor<std::chrono::days>(midnight)).c_encoding();
        std::string words;
        for (unsigned each = 0; each < 7; ++each) {
            words += each == today ? "" : fmt::format("\"{}\", ", names[each]);
        }
        return fmt::format("[day]\nweekdays = [{}]\n", words);
    }

    const Site site;
    const std::string day = today();
    const SystemSeconds midnight = midnight_of(day);
    const std::string next = date_of(midnight + 24h);
    const std::string end = text_of(midnight + 24h);
    const std::string hours = fmt::format("{}, {} to {}", day, text_of(midnight), end);

  private:
    const unsigned short metrics_port_ = free_port();
    std::shared_ptr<RecentEvents> recent_;
    std::unique_ptr<Service> service_;
    std::future<int> running_;
};

// ---------------------------------------------------------------- a day

TEST_CASE("a day opens, and ends where it is asked to") {
    Served served;
    served.start();
    REQUIRE(served.comes_to(Phase::ready));
    CHECK(served.service().condition().words() == "ready: " + served.hours);
    CHECK(served.answers({"status"}, "a restart now goes on with " + served.day));
    CHECK(served.answers({"next-day"}, "the files are right\n"));
    CHECK(served.answers({"next-day"}, served.next));
    CHECK(served.asks({"log", "accept-loss", "--because", "x"}) ==
          "error\nno log waits to be accepted\n");
    CHECK(served.shows("/metrics", "\nmireseason_ready 1\n"));
    CHECK(served.shows("/metrics", "\nmireseason_healthy 1\n"));
    CHECK(served.shows("/metrics", "\nmireseason_day_ends_timestamp_seconds "));
    CHECK(served.shows("/ready", "ready: " + served.hours));
    CHECK(served.shows("/", "DLR1"));
    const auto kept = kept_hours(served.site.config());
    REQUIRE(kept);
    CHECK(kept->date == served.day);
    CHECK(kept->opens == served.midnight);
    CHECK(kept->ends == served.midnight + 24h);
    CHECK(served.stopped() == 0);
    CHECK(served.is_told("info stop cause=\"enough\""));
}

// Nobody is asked to accept a loss where there is none.
TEST_CASE("a day that fails") {
    Served served;
    served.site.put("venue.sh", "exit 3\n");
    served.start();
    REQUIRE(served.comes_to_end());
    CHECK(served.ended() == 1);
    CHECK_FALSE(served.is_told(waits_for_operator));
}

TEST_CASE("a day that has not opened") {
    Served served;
    served.start(served.closed_today());
    const std::string opens = text_of(served.midnight + 24h);
    REQUIRE(served.comes_to_tell(fmt::format("info closed until={} date={}", opens, served.next)));
    CHECK(served.comes_to(Phase::closed));
    const std::string waits =
        fmt::format("the trading day {}, which opens at {}", served.next, opens);
    CHECK(served.answers({"status"}, waits));
    CHECK(served.answers({"status"}, fmt::format("a restart now opens no day yet: {} opens at {}",
                                                 served.next, opens)));
    CHECK(served.asks({"firms"}) == fmt::format("error\nno day is open: {}\n", waits));
    CHECK(served.answers({"next-day"}, served.next));
    CHECK(served.shows("/ready", "closed: " + served.next));
    CHECK(served.shows("/metrics", "\nmireseason_ready 0\n"));
    CHECK(served.stopped() == 0);
    CHECK_FALSE(fs::exists(served.site / fmt::format("day-{}.db", served.next)));
}

TEST_CASE("a venue that has one day alone") {
    Served served;
    served.site.put("venue.toml", fmt::format("date = \"{}\"\n{}", served.day, least_venue()));
    served.start();
    REQUIRE(served.comes_to(Phase::ready));
    CHECK(served.service().condition().words() == "ready: " + served.hours);
    CHECK(served.asks({"next-day"}) ==
          fmt::format("error\nthere is no next day: the venue's configuration is of {} alone\n",
                      served.day));
    CHECK(served.stopped() == 0);
}

TEST_CASE("credentials are read again") {
    Served served;
    served.start();
    REQUIRE(served.comes_to(Phase::ready));
    served.service().ask_to_renew();
    CHECK(served.comes_to_tell("info credentials and certificates were read again"));
    served.site.put("venue.toml", other_venue());
    CHECK(served.comes_to_tell(fmt::format(
        "info configuration changed: it is right, and applies from {} on", served.next)));
    CHECK(served.stopped() == 0);
}

TEST_CASE("what is in doubt is told at the start") {
    Served served;
    make_keys(served.site / "others", {"other"});
    served.site.put("gateway.toml", [&] {
        std::string text = served.site.text;
        return text.replace(text.find("keys/gateway.pub"), 16, "others/other.pub");
    }());
    served.start_as_it_is();
    CHECK(served.comes_to_tell(
        "warning configuration in doubt: [seal] gateways: none of them is the public key of "
        "signing_key. Add it: whoever checks a day by these keys accepts no signature of this "
        "gateway"));
    served.comes_to(Phase::ready);
}

// ---------------------------------------------------------------- a day that has begun

// Its traders of then cancel on a disconnect, where it knows none of now.
TEST_CASE("a day goes on with the configuration that it began with") {
    Served served;
    served.site.begin();
    served.site.put("venue.toml", "version = 1\n" + bond_row() +
                                      dealer_row({"DLR1", R"("T7")", 4095}) + investor_row());
    served.site.put("credentials.toml", "[DLR1]\nusername = \"d\"\npassword = \"$6$salt$hash\"\n"
                                        "cancel_on_disconnect = \"T7\"\n");
    served.start();
    REQUIRE(served.comes_to(Phase::ready));
    CHECK(served.is_told("info the day goes on with the configuration that it began with: that of "
                         "the files applies to the next day"));
    CHECK(served.is_told("warning this day knows no trader T7 of DLR1: until it ends T1 cancels on "
                         "a disconnect"));
    CHECK(served.answers({"hand-out", "DLR1"}, "4096"));
    CHECK(served.stopped() == 0);
}

TEST_CASE("a day goes on by the hours that it began with") {
    Served served;
    served.site.begin();
    keep_hours(served.site.config(), {served.day, served.midnight, served.midnight + 24h - 2min,
                                      served.midnight + 24h - 1min});
    served.start(served.closed_today());
    REQUIRE(served.comes_to(Phase::ready));
    CHECK(served.is_told(fmt::format(
        "warning the day goes on by the hours that it began with: by [day] as it is now it would "
        "be closed date={} ends={}; `mireseason-admin end-day` ends it",
        served.day, text_of(served.midnight + 24h - 1min))));
    CHECK(served.answers({"next-day"}, served.next));
    CHECK(served.stopped() == 0);
}

// Nor by hours of later, which the files have by now.
TEST_CASE("a day that an operator has ended is not opened again") {
    struct Hours {
        const char *text;
        std::chrono::minutes opens; // on the next day, from this one's midnight
    };
    for (const Hours &hours :
         {Hours{"", 24h}, {"[day]\nopens = \"23:58\"\nends = \"23:59\"\n", 47h + 58min}}) {
        CAPTURE(hours.text);
        Served served;
        served.site.begin();
        served.site.end("ann(7) end-day");
        served.start(hours.text);
        REQUIRE(served.comes_to(Phase::closed));
        CHECK(served.comes_to_tell(
            "info an operator has ended this day: it is not opened again date=" + served.day));
        CHECK(served.comes_to_tell(fmt::format(
            "info closed until={} date={}", text_of(served.midnight + hours.opens), served.next)));
        CHECK(served.stopped() == 0);
    }
}

TEST_CASE("days before are signed and copied") {
    Served served;
    served.site.begin([](Config &) {}, "20200101");
    fs::create_directory(served.site / "copies");
    served.start("[copies]\nfolder = \"copies\"\n");
    CHECK(served.comes_to_tell("warning the end of a day was signed late date=20200101"));
    CHECK(served.comes_to_tell("info day copied date=20200101 to=" +
                               (served.site / "copies/20200101").string()));
    REQUIRE(served.comes_to(Phase::ready));
    CHECK(served.shows("/metrics", "\nmireseason_days_without_copy 0\n"));
    CHECK(served.stopped() == 0);
    Served without;
    without.site.begin([](Config &) {}, "20200101");
    without.start("[copies]\nfolder = \"none\"\n");
    REQUIRE(without.comes_to(Phase::ready));
    CHECK(comes_true([&] { // until its copying has ended
        return without.asks({"status"}, true).find("\"days_without_copy\": 1") != std::string::npos;
    }));
    CHECK(without.shows("/metrics", "\nmireseason_days_without_copy 1\n"));
    CHECK(without.stopped() == 0);
}

// Each venue's days lie in one folder, and the look at it for the first venue is given up before it
// ends: what is found for the second is no count of all.
TEST_CASE("copies on a disk that does not answer in time") {
    Served served;
    fs::create_directory(served.site / "copies");
    fs::create_directory(served.site / "sealed");
    const std::string one = "command = [\"sh\", \"./venue.sh\"]\nprogram = \"./program\"\n"
                            "configuration = \"venue.toml\"\nconfined = false\n";
    std::string text = served.site.text;
    text.replace(text.find("[venue]"), text.find("[log]") - text.find("[venue]"),
                 "[venue.north]\n" + one + "[venue.south]\n" + one);
    text.replace(text.find("day-{date}"), 10, "{venue}-{date}");
    served.site.put("gateway.toml", text + "[copies]\nfolder = \"copies\"\nsealed = \"sealed\"\n"
                                           "[operator]\nsocket = \"s\"\n");
    served.start_as_it_is();
    REQUIRE(served.comes_to(Phase::ready));
    const auto says = [&](const std::string &words) {
        return served.asks({"status"}, true).find("\"days_without_seal\": " + words) !=
               std::string::npos;
    };
    CHECK(says("0"));
    slow_folder.is_next(served.site / "copies");
    CHECK(says("\"not known: the disk does not answer\""));
    CHECK(says("0"));
    CHECK(served.stopped() == 0);
}

// ---------------------------------------------------------------- a loss

TEST_CASE("a loss waits for the operator") {
    Served served;
    served.site.begin();
    const std::string kept =
        (served.site / fmt::format("checkpoints/day-{}.checkpoint", served.day)).string();
    fs::remove(kept);
    served.start();
    REQUIRE(served.comes_to_tell(waits_for_operator));
    REQUIRE(served.comes_to(Phase::closed));
    CHECK(served.answers({"status"}, "log accept-loss: there is no checkpoint in " + kept));
    CHECK(served.asks({"log", "accept-loss", "--because", "x"}) ==
          fmt::format("ok\n{}: the log goes on after entry 0; the checkpoint that was kept had "
                      "nothing\n",
                      kept));
    REQUIRE(served.comes_to(Phase::ready));
    CHECK(served.asks({"log", "accept-loss", "--because", "x"}) ==
          "error\nno log waits to be accepted\n");
    CHECK(served.stopped() == 0);
}

TEST_CASE("a loss that is not accepted") {
    Served asked;
    asked.site.begin();
    fs::remove_all(asked.site / "checkpoints");
    asked.start();
    REQUIRE(asked.comes_to(Phase::closed));
    CHECK(asked.stopped() == 0);
    Served unasked; // nobody could be asked
    unasked.site.begin();
    fs::remove_all(unasked.site / "checkpoints");
    unasked.start_as_it_is();
    CHECK(unasked.ended() == log_not_accepted);
}

} // namespace gateway::tests
