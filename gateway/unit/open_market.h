// A gateway whose day is open, over venues that say nothing: at one venue or at several.
#ifndef GATEWAY_TESTS_OPEN_MARKET_H
#define GATEWAY_TESTS_OPEN_MARKET_H

#include "check.h"
#include "comes_true.h"
#include "common/frame.h"
#include "config/log_location.h"
#include "log/checkpoint_file.h"
#include "operator/admin_command.h"
#include "operator/admin_words.h"
#include "quiet_venue.h"
#include "room_of_day.h"
#include "test_keys.h"

#include <chrono>
#include <csignal>
#include <filesystem>
#include <fstream>
#include <functional>
#include <future>
#include <map>
#include <memory>
#include <optional>
#include <shared_mutex>
#include <sstream>
#include <string>
#include <thread>
#include <vector>

#include <fmt/format.h>
#include <spdlog/sinks/ostream_sink.h>

namespace gateway::tests {

namespace fs = std::filesystem;
using Words = std::vector<std::string>;

inline constexpr const char *configuration = R"(version = 1
[[bond]]
id = "BONDA0000001"
[[dealer]]
name = "DLR1"
traders = ["T1", "T2"]
quotes = 4
exposure = 10000000
[[dealer]]
name = "DLR2"
traders = ["T3"]
quotes = 4
exposure = 10000000
[[investor]]
name = "INV1"
traders = ["V1"]
requests = 3
open = 2
quantity = 5000000
[[investor]]
name = "INV2"
traders = ["V2"]
requests = 3
open = 2
quantity = 5000000
)";

inline Config config_of(const fs::path &folder, const std::string &venue) {
    Config config;
    config.venue = venue;
    config.command = {"sh", (folder / "venue.sh").string()};
    config.program = "/bin/sh";
    config.configuration = configuration;
    config.firms = {today(), {"DLR1", "DLR2", "INV1", "INV2"}};
    config.sqlite = folder / (venue + ".db");
    config.engine.address = "127.0.0.1";
    config.credentials["DLR1"] = {"dora", "$6$salt$hash", "T2"};
    give_keys(config, folder);
    return config;
}

inline std::string line_without_moment(const Entry &entry) {
    if (entry.firm) {
        return with_bars(frame_of_line(entry.line));
    }
    std::string line = entry.line;
    const std::size_t at = line.find(entry.moment);
    return at == std::string::npos ? line : line.erase(at, entry.moment.size() + 1);
}

// It runs until it is ended.
class Market final : public AdminScene {
  public:
    using Change = std::function<void(Config &)>;

    explicit Market(
        const Words &venues = {""}, const Change &change = [](Config &) {},
        std::optional<TradingDay> hours = std::nullopt)
        : hours_(std::move(hours)) {
        std::signal(SIGPIPE, SIG_IGN);
        wait_for_room_of_day();
        std::ofstream(folder_.path() / "venue.sh") << venue_text;
        for (const std::string &venue : venues) {
            configs_.push_back(config_of(folder_.path(), venue));
            change(configs_.back());
        }
        open();
        // A day with hours may have ended by now.
        REQUIRE((hours_ || gateway_->is_open()));
    }
    ~Market() override { end(); }
    Market(const Market &) = delete;
    Market &operator=(const Market &) = delete;

    // Nobody has the logs any more.
    void close() {
        end();
        gateway_.reset();
    }
    // Another gateway, over the logs that are there.
    void start_again() {
        close();
        open();
    }
    // Waits for an end by itself; what it failed by.
    std::optional<std::string> ended() { return running_.get(); }
    void end() {
        if (gateway_) {
            gateway_->ask_to_stop("the test is over");
        }
        if (running_.valid()) {
            running_.wait();
        }
    }

    HeldDay hold_day() override {
        HeldDay held;
        held.lock = std::shared_lock(mutex_);
        held.gateway = gateway_.get();
        return held;
    }
    std::string waits_for() override { return "nothing"; }
    std::string accept_loss(const std::vector<Act> &) override { throw AdminFault("no log waits"); }
    NextDay next_day() override { return next; }
    Beside beside() override { return around; }

    NextDay next;
    Beside around;

    std::string asks(const Words &words, bool wants_json = false) {
        const std::string line = line_of({wants_json, words});
        return answer_to(*this, "ann(7)", line.substr(0, line.size() - 1));
    }
    // The first row of the answer in JSON that has this.
    std::string row(const Words &words, const std::string &part) {
        const std::string answer = asks(words, true);
        const std::size_t at = answer.find(part);
        check(at != std::string::npos, part + " is not in " + answer);
        const std::size_t begin = answer.rfind('{', at);
        return answer.substr(begin, answer.find('}', at) + 1 - begin);
    }
    // Whether that row has this, too.
    bool has(const Words &words, const std::string &part, const std::string &value) {
        const std::string found = row(words, part);
        const bool is_in = found.find(value) != std::string::npos;
        CHECK_MESSAGE(is_in, found);
        return is_in;
    }
    bool has_firm(const std::string &firm, const std::string &value) {
        return has({"firms"}, fmt::format("\"firm\": \"{}\"", firm), value);
    }
    bool has_state(const std::string &value) { return has({"status"}, "\"state\"", value); }

    Leader &leader(std::size_t venue = 0) { return *gateway_->leaders().at(venue); }
    const Gateway &gateway() const { return *gateway_; }
    const Config &config(std::size_t venue = 0) const { return configs_.at(venue); }
    const fs::path &folder() const { return folder_.path(); }

    // The venue answers nothing, or goes on.
    void has_venue_wait(bool waits) const {
        if (waits) {
            std::ofstream(folder_.path() / "waits") << "";
        } else {
            fs::remove(folder_.path() / "waits");
        }
    }
    // A firm's session, as the engine has it.
    SessionHost &host(const std::string &firm, std::size_t venue = 0) {
        for (const SessionStart &start : leader(venue).session_starts()) {
            if (start.firm == firm) {
                return *start.host;
            }
        }
        throw std::runtime_error("there is no firm " + firm);
    }

    // Of the next message of a firm in its session: from 2 on, behind a Logon.
    std::uint32_t next_number(const std::string &firm) { return 2 + sent_[firm]++; }

    std::vector<Entry> entries(std::size_t venue = 0) const {
        return read_log(config(venue))->entries(1, 1000);
    }
    // The lines of its log, without their moments.
    Words lines(std::size_t venue = 0) const {
        Words lines;
        for (const Entry &entry : entries(venue)) {
            lines.push_back(line_without_moment(entry));
        }
        return lines;
    }
    fs::path checkpoint(std::size_t venue = 0) const {
        const Config &of = config(venue);
        return checkpoint_path(of.checkpoints, of.venue, of.firms.date);
    }
    // Whether its last checkpoint says that the day ends there.
    bool has_signed_end() const {
        return fs::exists(checkpoint()) && !says_that_it_goes_on(checkpoint());
    }
    int exit_status() { return gateway_->exit_status(); }
    // Whether the metrics say this within a minute.
    bool comes_to_count(const std::string &text) const {
        return comes_true([&] { return metrics_.text().find(text) != std::string::npos; });
    }
    // How often this was told, of lines that begin with it; once it has ended.
    std::size_t told(const std::string &begin) const {
        const std::string all = "\n" + told_.str();
        std::size_t count = 0;
        for (std::size_t at = all.find("\n" + begin); at != std::string::npos;
             at = all.find("\n" + begin, at + 1)) {
            ++count;
        }
        return count;
    }

  private:
    void open() {
        gateway_ = std::make_unique<Gateway>(folder_.path() / "gateway.toml", configs_, hours_,
                                             metrics_, logger());
        gateway_->start();
        running_ = std::async(std::launch::async, [this] { return gateway_->run(); });
    }
    std::shared_ptr<spdlog::logger> logger() {
        auto sink = std::make_shared<spdlog::sinks::ostream_sink_mt>(told_);
        sink->set_pattern("%v");
        return std::make_shared<spdlog::logger>("events", sink);
    }

    const Scratch folder_{"open_market"};
    const std::optional<TradingDay> hours_;
    std::vector<Config> configs_;
    std::map<std::string, std::uint32_t> sent_;
    std::ostringstream told_;
    Metrics metrics_;
    std::unique_ptr<Gateway> gateway_;
    std::shared_mutex mutex_;
    std::future<std::optional<std::string>> running_;
};

inline bool has_line(const Words &lines, const std::string &words) {
    return std::ranges::any_of(
        lines, [&](const std::string &line) { return line.find(words) != std::string::npos; });
}

// What becomes of a message of a firm, which has a connection for it.
inline Taken taken_of(Market &market, const std::string &firm, const std::string &type,
                      const std::string &rest) {
    SessionHost &host = market.host(firm);
    const std::uint32_t connection = host.logon_accepted(firm, {"192.0.2.1:1", "", false});
    const std::uint32_t number = market.next_number(firm);
    const std::string bytes = framed(with_soh(fmt::format(
        "35={}|49={}|56=VENUE|34={}|52=20250314-09:00:00.000|50=T1|{}", type, firm, number, rest)));
    SessionEvent event;
    event.numbers.expected = number + 1;
    event.is_logged_on = true;
    Taken taken =
        host.take(firm, {bytes, number, {connection, std::chrono::system_clock::now()}}, event);
    host.all_received();
    host.connection_ended(firm, connection, "over");
    return taken;
}

// Why it is not taken; empty where it is.
inline std::string denial_of(Market &market, const std::string &firm, const std::string &type,
                             const std::string &rest) {
    const Taken taken = taken_of(market, firm, type, rest);
    return taken.verdict == Taken::Verdict::taken ? "" : taken.text;
}

inline std::string denial_of_quote(Market &market, const std::string &more = "") {
    return denial_of(market, "DLR1", "S", "117=q1|131=R1|48=BONDA0000001|22=4|133=99.5|" + more);
}

// The venue tells an investor of its request: 0 that it is open, 7 that it has ended.
inline void tell_of(Market &market, const std::string &request, char status,
                    const std::string &firm = "INV1", std::size_t venue = 0) {
    const std::string frame = framed(
        with_soh(fmt::format("35=AI|52=20250314-09:00:00.000|131={}|297={}|", request, status)));
    market.leader(venue).day().open_requests.was_given(firm, GivenFields(frame));
}

// The venue tells DLR1 that a quote of this trader is accepted.
inline void tell_of_quote(Market &market, const std::string &quote, const std::string &request,
                          const std::string &trader) {
    std::string line = "hex DLR1 09:00:00.000 ";
    append_hexadecimal(line, framed(with_soh(fmt::format("35=S|50={}|", trader))));
    const std::string frame =
        framed(with_soh(fmt::format("35=AI|131={}|117={}|297=0|", request, quote)));
    market.leader().day().live_quotes.was_given(line, "DLR1", GivenFields(frame));
}

inline constexpr const char *ok = "ok\n";

} // namespace gateway::tests

#endif
