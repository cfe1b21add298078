#include "day/gateway.h"

#include "common/version.h"
#include "day/begin_term.h"
#include "health/certificate_end.h"

#include <algorithm>
#include <future>

#include <fmt/chrono.h>

namespace gateway {

using namespace std::chrono_literals;

Gateway::Gateway(std::filesystem::path path, std::vector<Config> configs,
                 std::optional<TradingDay> hours, Metrics &metrics,
                 std::shared_ptr<spdlog::logger> events)
    : path_(std::move(path)), configs_(std::move(configs)), hours_(std::move(hours)),
      events_(std::move(events)), metrics_(metrics), status_(events_),
      engine_events_(metrics_, events_), engine_(configs_.front().engine, {}, engine_events_) {
    for (const Config &config : configs_) {
        days_.push_back(
            std::make_unique<VenueDay>(config, metrics_, status_, events_, engine_events_, hours_));
    }
    engine_events_.tell_strangers_to([this](const ConnectionFacts &facts, const std::string &why) {
        for (const auto &leader : leaders_) {
            leader->put_stranger(facts, why);
        }
    });
}

// Nothing new comes; the days' threads hand what they have to the engine, and then it may go.
Gateway::~Gateway() {
    open(false);
    status_.end();
    engine_.stop("");
    leaders_.clear();
}

void Gateway::start(ListeningPort port) {
    port_ = std::move(port);
    if (!are_sessions_proved()) {
        events_->warn("sessions are not proved: this gateway was built with their model");
    }
    follow();
    if (!status_.stopping().stop_requested()) {
        listen();
    }
}

// Each venue's log on a thread of its own. The logs are taken over one after the other, so that
// of two gateways that begin at once one speaks for all.
void Gateway::follow() {
    std::vector<std::future<std::unique_ptr<Leader>>> days;
    for (std::size_t at = 0; at < days_.size(); ++at) {
        days.push_back(std::async(std::launch::async, [this, at] { return follow_one(at); }));
    }
    for (auto &day : days) {
        if (auto leader = day.get()) {
            leaders_.push_back(std::move(leader));
        }
    }
}

// Null where the gateway is to stop.
std::unique_ptr<Leader> Gateway::follow_one(std::size_t at) {
    try {
        return begin_term(
            *days_[at], engine_, [this, at] { return at == 0 || days_[at - 1]->has_term; },
            [this] { close_port(); });
    } catch (const LogNotAccepted &fault) {
        {
            const std::lock_guard lock(mutex_);
            not_accepted_.push_back(at);
        }
        status_.fail(fault.what(), log_not_accepted);
    } catch (const std::exception &fault) {
        status_.fail(fault.what());
    }
    return nullptr;
}

// Firms are to find the gateway that speaks.
void Gateway::close_port() {
    const std::lock_guard lock(mutex_);
    port_ = ListeningPort();
}

void Gateway::listen() {
    for (const auto &leader : leaders_) {
        engine_.add(leader->session_starts());
    }
    for (const auto &leader : leaders_) {
        leader->start();
    }
    if (status_.stopping().stop_requested() || ends_day()) {
        return;
    }
    if (is_to_renew_.exchange(false)) {
        // Asked for while another gateway spoke.
        renew();
    }
    engine_.listen(std::move(port_));
    status_.is_now(Phase::ready);
    const EngineSettings &settings = configs_.front().engine;
    look_at_ends(settings);
    events_->info("ready address={}:{} tls={} firms={}", settings.address, settings.port,
                  !settings.certificate.empty(), engine_.sessions());
    open(true);
}

// Waits for the commands that are at work.
void Gateway::open(bool is_open) {
    const std::unique_lock lock(open_mutex_);
    is_open_ = is_open;
}

// All or nothing: where a file is at fault, what was read before stays in force.
void Gateway::renew() {
    try {
        std::vector<Config> read;
        for (const Config &config : configs_) {
            read.push_back(read_access(path_, config));
        }
        engine_.renew(read.front().engine);
        look_at_ends(read.front().engine);
        for (std::size_t at = 0; at < leaders_.size(); ++at) {
            leaders_[at]->renew(read[at].credentials);
        }
        events_->info("credentials and certificates were read again");
        tell_renewed("");
    } catch (const std::exception &fault) {
        events_->error("credentials and certificates stay as they were cause=\"{}\"", fault.what());
        tell_renewed(fault.what());
    }
}

void Gateway::look_at_ends(const EngineSettings &settings) {
    count_certificates(settings, metrics_);
    list_end_ = end_of_lists(settings.revoked).value_or(std::chrono::sys_seconds::max());
}

void Gateway::tell_renewed(const std::string &fault) {
    const std::lock_guard lock(mutex_);
    ++renewals_;
    renewal_fault_ = fault;
    renewed_.notify_all();
}

std::optional<std::string> Gateway::renew_within(std::chrono::milliseconds longest) {
    std::unique_lock lock(mutex_);
    const std::uint64_t before = renewals_;
    is_to_renew_ = true;
    const bool is_done = renewed_.wait_for(lock, longest, [&] { return renewals_ != before; });
    return is_done ? std::optional(renewal_fault_) : std::nullopt;
}

std::vector<std::string> Gateway::unknown_firms() const {
    return gateway::unknown_firms(path_, configs_);
}

std::vector<std::string> Gateway::halts() const {
    std::vector<std::string> lines;
    const auto now = std::chrono::floor<std::chrono::seconds>(std::chrono::system_clock::now());
    if (const std::chrono::sys_seconds end = list_end_; end - now <= notice_of_list) {
        lines.push_back(fmt::format("nobody can log on from {:%Y-%m-%dT%H:%M:%SZ} on, when the "
                                    "list of revoked certificates ends: put a new one in its "
                                    "place, and mireseason-admin reload",
                                    fmt::gmtime(end.time_since_epoch().count())));
    }
    for (const auto &day : days_) {
        const std::string venue = day->config.venue.empty() ? "" : " of " + day->config.venue;
        if (const std::string words = day->halts.words(); words == "yes") {
            lines.push_back(fmt::format("an operator has halted the venue{}", venue));
        } else if (words != "no") {
            lines.push_back(fmt::format("an operator has halted bonds{}: {}", venue, words));
        }
        if (!day->clock_is_right) {
            lines.push_back(fmt::format("no request and no quote is taken{}, since the clock was "
                                        "set: mireseason-admin clock accept",
                                        venue));
        }
    }
    return lines;
}

std::vector<std::string> Gateway::not_taken() const {
    std::vector<std::string> lines = halts();
    for (const auto &day : days_) {
        if (day->reserve.is_reached()) {
            lines.push_back(
                fmt::format("no request and no quote is taken{}, until there is room "
                            "on the log's disk",
                            day->config.venue.empty() ? "" : " of " + day->config.venue));
        }
    }
    return lines;
}

std::vector<OpenRequests::Open> Gateway::open_requests() const {
    std::vector<OpenRequests::Open> all;
    for (const auto &day : days_) {
        for (OpenRequests::Open &open : day->open_requests.all()) {
            open.firm += day->config.venue.empty() ? "" : " of " + day->config.venue;
            all.push_back(std::move(open));
        }
    }
    return all;
}

void Gateway::ask_to_stop(const std::string &why) {
    status_.ask_to_stop(why);
}

bool Gateway::has_day_come_to_its_end() const {
    return hours_ ? std::chrono::system_clock::now() >= hours_->ends
                  : std::ranges::any_of(days_, [](const auto &day) {
                        return day->clock.day() == DayClock::Day::over;
                    });
}

bool Gateway::has_operator_ended_it() {
    return !leaders_.empty() && std::ranges::all_of(leaders_, [](const auto &leader) {
        return leader->has_operator_ended();
    });
}

// Asks for the end where the day has come to it, or an operator has ended it: once what is due by
// now was told, and before the sessions are logged out. Whether it has.
bool Gateway::ends_day() {
    const bool has_come = hours_ && has_day_come_to_its_end();
    if (!has_come && !has_operator_ended_it()) {
        return false;
    }
    for (const auto &leader : leaders_) {
        leader->end_requests();
    }
    status_.ask_to_stop(has_come ? "the day has ended" : "the operator has ended the day");
    return true;
}

std::optional<std::string> Gateway::run() {
    while (!status_.wait(1s)) {
        if (ends_day()) {
            break;
        }
        if (is_to_renew_.exchange(false)) {
            renew();
        }
        engine_events_.tell_rest();
        for (const auto &leader : leaders_) {
            leader->look();
        }
    }
    open(false);
    if (const auto failure = status_.failure()) {
        return failure;
    }
    status_.is_now(Phase::ends);
    events_->info("stop cause=\"{}\"", status_.why());
    engine_.stop(status_.why());
    engine_events_.tell_last_rest();
    for (const auto &leader : leaders_) {
        leader->finish();
    }
    // Only now: until then each of several may fail.
    status_.end();
    const bool is_end_of_day = has_day_come_to_its_end() || has_operator_ended_it();
    for (const auto &leader : leaders_) {
        leader->end(is_end_of_day);
    }
    return status_.failure();
}

} // namespace gateway
